/* A model of the locks of several channels, each with a queue before it, for three threads and two or three channels.

   What each part stands for, as FILE: FUNCTIONS
     word                  crates/txc_table_lock/src/steps.rt: is_free
     compare_exchange      crates/txc_table_lock/src/steps.rt: try_take, leave, mark
     lock                  crates/txc_table_lock/src/waiting.rt: lock, wait, try_again, wait_for_turn
     wait_in_turn          crates/txc_table_lock/src/waiting.rt: wait_in_turn, look, sleep
     unlock                crates/txc_table_lock/src/waiting.rt: unlock, wake
     .. word[c] = Left     crates/txc_table_lock/src/steps.rt: hand_over
     rising order          crates/txc_table_lines/src/guards.rt: take, take_line
     unlock, last first    crates/txc_table_lines/src/guards.rt: release
     one lock only         crates/txc_table_line/src/seat_share.rt: take_snapshot
     .. with a commit      crates/txc_table_lines/src/one_operation.rt: commit_one

   What is left out: how often a thread looks at a word (a look is a step, and the last one counts), the pauses, and
   what is under a lock. Each load, store and compare_exchange of a word is one step; all are SeqCst. A thread that
   sleeps compares the word and falls asleep in one step. With -DSPURIOUS=true it may also wake for no reason. The
   queue is a lock of the toolchain, whose taking is one step.

   What is checked: every thread ends (no invalid end state), and a channel has one holder. */

#ifndef WRONG
#define WRONG 0
#endif
/* A wrong lock, which the search must find:
    1 one thread takes its locks in falling order
    2 an unlock wakes no thread
    3 a thread sleeps without a mark in the word
    4 a thread that sleeps does not compare the word
    5 the threads that wait for a lock have no queue
    6 the first of the queue takes a free lock without a comparison */

#define THREADS 3
#ifndef LINES
#define LINES 2
#endif
#ifndef ROUNDS
#define ROUNDS 2
#endif
#ifndef SPURIOUS
#define SPURIOUS false
#endif
#define MAX_SLEEPS 2

/* what the word of a lock says; those that are not free are in the order of their numbers */
#define Taken 0
#define Free 1
#define Awaited 2
#define Claimed 3
#define Left 4
#define IS_FREE(w) ((w) == Free || (w) == Left)

byte word[LINES] = Free;
bool queue[LINES];
byte sleeps_at[THREADS];    /* at which lock a thread sleeps: its number and one more */

/* for the checks alone */
byte holders[LINES];

inline compare_exchange(c, from, to) {
  atomic {
    if
    :: word[c] == from -> word[c] = to; done = true
    :: else -> done = false
    fi
  }
}

inline sleep(c) {
  atomic {
    if
    :: word[c] == wanted || WRONG == 4 -> sleeps_at[_pid] = c + 1
    :: else
    fi
  };
  atomic { sleeps_at[_pid] == 0 || SPURIOUS -> sleeps_at[_pid] = 0 }
}

/* one of the threads that sleep at the lock, if there is one */
inline wake_one(c) {
#if WRONG == 2
  skip
#else
  atomic {
    if
    :: sleeps_at[0] == c + 1 -> sleeps_at[0] = 0
    :: sleeps_at[1] == c + 1 -> sleeps_at[1] = 0
    :: sleeps_at[2] == c + 1 -> sleeps_at[2] = 0
    :: else
    fi
  }
#endif
}

/* The first thread of the queue marks the word before it sleeps: it waits for the lock, or, after some sleeps, claims
   it. Then the lock is left for this thread. */
inline wait_in_turn(c) {
  do
  :: seen = word[c];
     if
     :: IS_FREE(seen) ->
#if WRONG == 6
          word[c] = Taken;
          break
#else
          compare_exchange(c, seen, Taken);
          if :: done -> break :: else fi
#endif
     :: else ->
#if WRONG == 3
          wanted = seen; done = true;
#else
          wanted = (sleeps < MAX_SLEEPS -> Awaited : Claimed);
          done = true;
          if :: seen < wanted -> compare_exchange(c, seen, wanted) :: else fi;
#endif
          if
          :: done -> sleep(c); sleeps = (sleeps < MAX_SLEEPS -> sleeps + 1 : sleeps)
          :: else
          fi
     fi
  od;
  atomic { seen = 0; wanted = 0; sleeps = 0 }
}

inline lock(c) {
  compare_exchange(c, Free, Taken);
  if
  :: done
  :: else ->
       /* a thread may look again before it queues */
       if
       :: compare_exchange(c, Free, Taken)
       :: true
       fi;
       if
       :: done
       :: else ->
#if WRONG == 5
            wait_in_turn(c)
#else
            atomic { !queue[c] -> queue[c] = true };
            wait_in_turn(c);
            queue[c] = false
#endif
       fi
  fi;
  d_step { done = false; holders[c]++; assert(holders[c] == 1) }
}

inline unlock(c) {
  holders[c]--;
  compare_exchange(c, Taken, Free);
  if
  :: done
  :: else ->
       compare_exchange(c, Awaited, Free);
       if
       :: done
       :: else -> word[c] = Left
       fi;
       wake_one(c)
  fi;
  done = false
}

#if LINES == 3
#define ANY_LINE_2 if :: c = false :: c = true fi
#define LOCK_2 if :: c -> lock(2) :: else fi
#define UNLOCK_2 if :: c -> unlock(2) :: else fi
#else
#define ANY_LINE_2 skip
#define LOCK_2 skip
#define UNLOCK_2 skip
#endif

active [THREADS] proctype Thread() {
  byte n, seen, wanted, sleeps;
  bool done, a, b, c;
  do
  :: n < ROUNDS ->
       atomic {
         n++;
         if :: a = false :: a = true fi;
         if :: b = false :: b = true fi;
         ANY_LINE_2
       };
#if WRONG == 1
       if
       :: _pid == 0 ->
            LOCK_2;
            if :: b -> lock(1) :: else fi;
            if :: a -> lock(0) :: else fi
       :: else ->
            if :: a -> lock(0) :: else fi;
            if :: b -> lock(1) :: else fi;
            LOCK_2
       fi;
#else
       if :: a -> lock(0) :: else fi;
       if :: b -> lock(1) :: else fi;
       LOCK_2;
#endif
       UNLOCK_2;
       if :: b -> unlock(1) :: else fi;
       if :: a -> unlock(0) :: else fi
  :: else -> break
  od
}
