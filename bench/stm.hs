-- The jobs of threads.sh, ghost_log.sh and jobs.sh on GHC's stm, each operation or move a transaction of its own.
-- `stm JOB ITEMS` prints how many nanoseconds a transaction takes, for the jobs of the first two;
-- `stm jobs JOB TRANSACTIONS` does so for those of jobs.sh, where all threads together run about so many of them.
module Main (main) where

import Control.Concurrent (forkIO, newEmptyMVar, putMVar, takeMVar)
import Control.Concurrent.STM
import Control.Exception (evaluate)
import Control.Monad (forM, forM_, replicateM_, void)
import Data.Word (Word64)
import GHC.Clock (getMonotonicTimeNSec)
import System.Environment (getArgs)

-- | Runs each in a thread of its own, and waits for all of them.
together :: [IO ()] -> IO ()
together jobs = do
  ends <- forM jobs $ \job -> do
    end <- newEmptyMVar
    void $ forkIO (job >> putMVar end ())
    pure end
  mapM_ takeMVar ends

-- | Takes an item and looks at it.
taken :: STM Word64 -> IO ()
taken item = void (atomically item >>= evaluate)

-- | Four threads write and four read.
handedOn :: (Word64 -> STM ()) -> STM Word64 -> Int -> IO Int
handedOn write item items = do
  let each = items `div` 4
      writer = forM_ [1 .. each] (atomically . write . fromIntegral)
      reader = replicateM_ each (taken item)
  together (replicate 4 writer ++ replicate 4 reader)
  pure (2 * items)

pipeline :: Int -> IO Int
pipeline items = do
  queue <- newTQueueIO
  handedOn (writeTQueue queue) (readTQueue queue) items

bounded :: Int -> IO Int
bounded items = do
  queue <- newTBQueueIO 1024
  handedOn (writeTBQueue queue) (readTBQueue queue) items

-- | One thread writes what four read.
broadcast :: Int -> IO Int
broadcast items = do
  channel <- newBroadcastTChanIO
  readers <- atomically (mapM (const (dupTChan channel)) [1 .. 4 :: Int])
  let writer = forM_ [1 .. items] (atomically . writeTChan channel . fromIntegral)
  together (writer : [replicateM_ items (taken (readTChan reader)) | reader <- readers])
  pure (5 * items)

-- | Threads that each write an item to a queue of their own and read it.
apart :: Int -> Int -> IO Int
apart threads items = do
  together . replicate threads $ do
    queue <- newTQueueIO
    forM_ [1 .. items] $ \item -> do
      atomically (writeTQueue queue (fromIntegral item))
      taken (readTQueue queue)
  pure (2 * threads * items)

-- | Four threads move eight items between two queues.
ring :: Int -> IO Int
ring moves = do
  one <- newTQueueIO
  other <- newTQueueIO
  atomically (forM_ [0 .. 7 :: Word64] (writeTQueue one))
  let mover from to = replicateM_ (moves `div` 4) (atomically (readTQueue from >>= writeTQueue to))
  together [mover one other, mover other one, mover one other, mover other one]
  pure moves

-- | An item is moved, to and fro.
moved :: Int -> IO Int
moved moves = do
  one <- newTQueueIO
  other <- newTQueueIO
  atomically (writeTQueue one (7 :: Word64))
  let move from to = atomically (readTQueue from >>= writeTQueue to)
  replicateM_ (moves `div` 2) (move one other >> move other one)
  pure moves

-- | Three writes that are taken back, and then an item is moved, to and fro.
choice :: Int -> IO Int
choice moves = do
  one <- newTQueueIO
  other <- newTQueueIO
  atomically (writeTQueue one (7 :: Word64))
  let takenBack to = forM_ [0 .. 2] (writeTQueue to) >> retry
      move from to = atomically (takenBack to `orElse` (readTQueue from >>= writeTQueue to))
  replicateM_ (moves `div` 2) (move one other >> move other one)
  pure moves

-- | One thread writes what three read.
broadcastToThree :: Int -> IO Int
broadcastToThree items = do
  channel <- newBroadcastTChanIO
  readers <- atomically (mapM (const (dupTChan channel)) [1 .. 3 :: Int])
  let writer = forM_ [1 .. items] (atomically . writeTChan channel . fromIntegral)
  together (writer : [replicateM_ items (taken (readTChan reader)) | reader <- readers])
  pure (4 * items)

-- | One thread writes to two queues in turn, one moves what comes on either to a third, and one reads that.
merging :: Int -> IO Int
merging pairs = do
  one <- newTQueueIO
  other <- newTQueueIO
  merged <- newTQueueIO
  let writer = forM_ [1 .. pairs] $ \item -> do
        atomically (writeTQueue one (fromIntegral item))
        atomically (writeTQueue other (fromIntegral item))
      move from = readTQueue from >>= writeTQueue merged
      merger = replicateM_ (2 * pairs) (atomically (move one `orElse` move other))
  together [writer, merger, replicateM_ (2 * pairs) (taken (readTQueue merged))]
  pure (6 * pairs)

-- | Pairs of threads that hand an item to and fro between two queues of their own.
pingPong :: Int -> Int -> IO Int
pingPong pairs rounds = do
  ends <- forM [1 .. pairs] $ \_ -> do
    there <- newTQueueIO
    back <- newTQueueIO
    let one = forM_ [1 .. rounds] $ \item -> do
          atomically (writeTQueue there (fromIntegral item))
          taken (readTQueue back)
        other = replicateM_ rounds (atomically (readTQueue there) >>= atomically . writeTQueue back)
    pure [one, other]
  together (concat ends)
  pure (4 * pairs * rounds)

-- | A job of ghost_log.sh or threads.sh.
byItems :: String -> Int -> IO Int
byItems job = case job of
  "pipeline" -> pipeline
  "bounded" -> bounded
  "broadcast" -> broadcast
  "one" -> apart 1
  "two" -> apart 2
  "ring" -> ring
  "moved" -> moved
  "choice" -> choice
  _ -> error "no such job"

-- | A job of jobs.sh.
byTransactions :: String -> Int -> IO Int
byTransactions job transactions = case job of
  "solo" -> apart 1 (transactions `div` 2)
  "two" -> apart 2 (transactions `div` 4)
  "four" -> apart 4 (transactions `div` 8)
  "pipeline" -> pipeline (transactions `div` 8 * 4)
  "bounded" -> bounded (transactions `div` 8 * 4)
  "ring" -> ring (transactions `div` 4 * 4)
  "broadcast" -> broadcastToThree (transactions `div` 4)
  "choice" -> merging (transactions `div` 6)
  "pingpong" -> pingPong 1 (transactions `div` 4)
  "pingpongs" -> pingPong 4 (transactions `div` 16)
  _ -> error "no such job"

main :: IO ()
main = do
  words' <- getArgs
  let run = case words' of
        ["jobs", job, count] -> byTransactions job (read count)
        [job, count] -> byItems job (read count)
        _ -> error "stm [jobs] JOB COUNT"
  began <- getMonotonicTimeNSec
  transactions <- run
  ended <- getMonotonicTimeNSec
  print ((ended - began) `div` fromIntegral (max 1 transactions))
