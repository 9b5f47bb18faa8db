-- The jobs of src/main.rs on GHC's stm. `stm JOB ITEMS` prints how many nanoseconds of processor time, and by the
-- clock, a transaction takes.
module Main (main) where

import Control.Concurrent (forkIO, newEmptyMVar, putMVar, takeMVar)
import Control.Concurrent.STM
import Control.Exception (evaluate)
import Control.Monad (forM, forM_, replicateM, replicateM_, void)
import Data.Word (Word64)
import GHC.Clock (getMonotonicTimeNSec)
import System.CPUTime (getCPUTime)
import System.Environment (getArgs)

-- | Runs each in a thread of its own, and waits for all of them.
together :: [IO ()] -> IO ()
together jobs = do
  ends <- forM jobs $ \job -> do
    end <- newEmptyMVar
    void $ forkIO (job >> putMVar end ())
    pure end
  mapM_ takeMVar ends

-- | Takes an item and looks at it.
taken :: STM Word64 -> IO ()
taken item = void (atomically item >>= evaluate)

solo :: Int -> IO Int
solo items = do
  queue <- newTQueueIO
  forM_ [1 .. items] $ \item -> atomically (writeTQueue queue (fromIntegral item)) >> taken (readTQueue queue)
  pure (2 * items)

-- | So many threads write and as many read.
handedOn :: Int -> (Word64 -> STM ()) -> STM Word64 -> Int -> IO Int
handedOn pairs write item items = do
  let each = items `div` pairs
      writer = forM_ [1 .. each] (atomically . write . fromIntegral)
      reader = replicateM_ each (taken item)
  together (replicate pairs writer ++ replicate pairs reader)
  pure (2 * items)

-- | Four threads move eight items between two queues.
ring :: Int -> IO Int
ring moves = do
  one <- newTQueueIO
  other <- newTQueueIO
  atomically (forM_ [0 .. 7 :: Word64] (writeTQueue one))
  let mover from to = replicateM_ (moves `div` 4) (atomically (readTQueue from >>= writeTQueue to))
  together [mover one other, mover other one, mover one other, mover other one]
  pure moves

-- | One thread writes, and each of three reads all of it.
cast :: Int -> IO Int
cast items = do
  channel <- newBroadcastTChanIO
  readers <- replicateM 3 (atomically (dupTChan channel))
  let writer = forM_ [1 .. items] (atomically . writeTChan channel . fromIntegral)
      reader mine = replicateM_ items (taken (readTChan mine))
  together (writer : map reader readers)
  pure (4 * items)

run :: String -> Int -> IO Int
run job items = case job of
  "solo" -> solo items
  "pair" -> newTQueueIO >>= \queue -> handedOn 1 (writeTQueue queue) (readTQueue queue) items
  "pairs" -> newTQueueIO >>= \queue -> handedOn 4 (writeTQueue queue) (readTQueue queue) items
  "bounded" -> newTBQueueIO 64 >>= \queue -> handedOn 4 (writeTBQueue queue) (readTBQueue queue) items
  "ring" -> ring items
  "cast" -> cast items
  _ -> error "no such job"

main :: IO ()
main = do
  arguments <- getArgs
  let (job, items) = case arguments of
        [name, count] -> (name, read count)
        _ -> error "stm JOB ITEMS"
  began <- getMonotonicTimeNSec
  used <- getCPUTime
  transactions <- run job items
  usedThen <- getCPUTime
  ended <- getMonotonicTimeNSec
  let processor = (usedThen - used) `div` (1000 * toInteger transactions)
      clock = (ended - began) `div` fromIntegral transactions
  putStrLn (unwords [show processor, show clock])
