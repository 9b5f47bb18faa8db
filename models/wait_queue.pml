/* A model of the wait queue, and of how a table uses it, for two or three seats and two channels.

   What each part stands for, as FILE: FUNCTIONS
     Running .. Left       crates/txc_table_wait/src/waiters.rt: registered, notified, waiting, waiting_until, stalled
     WAS_WOKEN             crates/txc_table_wait/src/waiters.rt: was_woken
     AWAITS, STALLS        crates/txc_table_wait/src/waiters.rt: awaits, is_blocked
     look                  crates/txc_table_wait/src/waiters.rt: check_for_stall
     .. and wakes all      crates/txc_table_wait/src/wait_queue.rt: stall
     register, unregister  crates/txc_table_wait/src/wait_queue.rt: register, unregister
     .. in the words       crates/txc_table_wait/src/interested_seats.rt: add, remove
     take_registered       crates/txc_table_wait/src/wait_queue.rt: take_registered
     take_out              crates/txc_table_wait/src/interested_seats.rt: take_bits
     notify                crates/txc_table_wait/src/wait_queue.rt: notify, notify_some
     begin_wait            crates/txc_table_wait/src/wait_queue.rt: wait
     .. in the states      crates/txc_table_wait/src/waiters.rt: wait, end_wait
     begin_wait_until      crates/txc_table_wait/src/wait_queue.rt: wait_until
     .. in the states      crates/txc_table_wait/src/waiters.rt: wait_until, end_wait_until
     the end of a seat     crates/txc_table_wait/src/wait_queue.rt: leave
     attempt               crates/txc_table/src/table/attempt.rt: attempt_with, run, run_held
     take_all              crates/txc_table/src/table/attempt.rt: take_registered_for
     .. without the seat   crates/txc_table_wait/src/seats.rt: without
     Seat                  crates/txc_table/src/table/transact.rt: transact_for, try_until_kept, try_once
     MORE0 .. LESS1        crates/txc_table_interests/src/interests.rt: interests_of

   What is left out: the looks before a seat sleeps (they only read flag[]), memory, stamps and the bodies of items. A
   transaction of one operation is first tried at once (commit_at_once). If that does not commit, it has changed
   nothing, and is no step here.
   Each load, store, fetch_or and swap of an atomic is one step; all are SeqCst. What is done under the lock of the
   states is many steps, with the lock held. A condition variable releases the lock and sleeps in one step. With
   -DSPURIOUS=true it may also wake for no reason.

   What is checked:
     [1] at a stall no seat that learns of it could go on, no seat has a deadline, no commit is still to be notified,
         and no line is locked;
     [2] no seat sleeps although a commit that it waits for came after its last try, unless a seat is still to notify;
     [3] every run ends: no seat sleeps forever, none waits for a lock forever (invalid end states).

   tools/models.sh runs the searches. One by hand:
     spin -a -DTXNS=1 -DKINDS=5 wait_queue.pml && cc -O2 -DSAFETY -DCOLLAPSE -o pan pan.c && ./pan -m400000 */

#ifndef WRONG
#define WRONG 0
#endif
/* A wrong wait queue, which the search must find, except 5 and 9:
    1 the seat registers after its second try          2 only the seats of the last act are notified
    3 no seat learns of a stall at a leave             4 Any takes only the seats that wait for an item
    5 seats are notified before the locks are released (this costs time, and loses nothing)
    6 a notification wakes the sleepers before it marks them
    7 a seat that was notified counts as one that waits
    8 the table never notifies                         9 register forgets nothing (this costs a try)
   10 a move waits only for what its read waits for   11 wait does not look again for a notification or a stall
   12 a wait stays registered after its deadline
   13 a seat that waits until a deadline counts as one that waits with none
   14 a notification does not reach a seat that waits until a deadline
   15 a seat that waits until a deadline stalls too (and counts for a stall) */

#ifndef SEATS
#define SEATS 3
#endif
#define CHANS 2
#ifndef TXNS
#define TXNS 2          /* transactions of each seat, at most */
#endif
#ifndef KINDS
#define KINDS 255       /* which transactions seats run: a bit for each of those below */
#endif
#ifndef TIMES
#define TIMES true      /* whether some wait until a deadline */
#endif
#define PICK(t) (KINDS & (1<<t))
#ifndef BOUND
#define BOUND 1
#endif

#ifndef SPURIOUS
#define SPURIOUS false
#endif

#define Running 0
#define Notified 1
#define Waits 2
#define WaitsUntil 3
#define Stalled 4
#define Left 5

#define AWAITS(p) ((p) == Waits || (p) == WaitsUntil)
#if WRONG == 15
#define STALLS(p) AWAITS(p)
#else
#define STALLS(p) ((p) == Waits)
#endif

byte place[SEATS];
bool flag[SEATS];
byte more[CHANS];       /* bits of the seats that wait for an item */
byte less[CHANS];       /* .. for room */
bool states_locked;            /* the lock of the states */
bool line[CHANS];       /* the lines' locks */
bool asleep[SEATS];     /* sleeps at its condition variable */

byte items[CHANS];
bool shut[CHANS];

/* for the checks alone */
byte txn[SEATS];        /* what the seat runs */
bool failed[SEATS];     /* its last try failed, with it registered */
bool owed[SEATS];       /* a commit that it waits for came since */
bool notifying[SEATS];    /* it has committed, and not notified yet */
bool timed[SEATS];      /* it has a deadline, at which it goes on by itself */

/* transactions: 0 read 0   1 read 1   2 write 0   3 write 1   4 move from 0 to 1
                 5 read 0 or else read 1   6 close 0   7 move from 1 to 0 */
#define READS(c)  (items[c] > 0 || shut[c])
#define WRITES(c) (items[c] < BOUND || shut[c])
#define CAN(t) ( (t==0 && READS(0)) || (t==1 && READS(1)) || (t==2 && WRITES(0)) || (t==3 && WRITES(1)) \
              || (t==4 && READS(0) && WRITES(1)) || (t==5 && (READS(0) || READS(1))) || t==6 \
              || (t==7 && READS(1) && WRITES(0)) )
#define NAMES0(t) (t==0 || t==2 || t==4 || t==5 || t==6 || t==7)
#define NAMES1(t) (t==1 || t==3 || t==4 || t==5 || t==7)
/* interests: an item, room; of a move any change of both */
#if WRONG == 10
#define MOVES(t) (t==7)
#else
#define MOVES(t) (t==4 || t==7)
#endif
#define MORE0(t) (t==0 || t==5 || MOVES(t) || (WRONG==10 && t==4))
#define MORE1(t) (t==1 || t==5 || MOVES(t))
#define LESS0(t) (t==2 || MOVES(t))
#define LESS1(t) (t==3 || MOVES(t))
/* what the seat must be notified */
#define NEEDS_MORE0(t) (t==0 || t==5 || t==4)
#define NEEDS_MORE1(t) (t==1 || t==5 || t==7)
#define NEEDS_LESS0(t) (t==2 || t==7)
#define NEEDS_LESS1(t) (t==3 || t==4)

#define BIT(s) (1<<(s))
#define WAS_WOKEN(p) ((p)==Notified || (p)==Stalled)

inline lock_states() { atomic { !states_locked -> states_locked = true } }
inline unlock_states() { states_locked = false }

/* Under the lock of the states: if each seat waits with no deadline or has left, all that wait are stalled. */
inline look() {
  d_step {
    k = 0; still = true;
    do
    :: k < SEATS ->
         if
         :: STALLS(place[k]) || place[k] == Left
         :: WRONG == 7 && place[k] == Notified
         :: else -> still = false
         fi;
         k++
    :: else -> break
    od;
    if
    :: still ->
         k = 0;
         do
         :: k < SEATS ->
              if
              :: STALLS(place[k]) ->
                   assert(!CAN(txn[k]));                       /* [1] */
                   assert(!timed[k]);
                   assert(!owed[k]);
                   place[k] = Stalled
              :: else
              fi;
              k++
         :: else -> break
         od;
         k = 0;
         do
         :: k < SEATS -> assert(!notifying[k]); flag[k] = WAS_WOKEN(place[k]); k++
         :: else -> break
         od;
         assert(!line[0] && !line[1]);
         k = 0
    :: else -> k = 0
    fi
  }
  if
  :: still -> d_step { k = 0; do :: k < SEATS -> asleep[k] = false; k++ :: else -> break od; k = 0; still = false }
  :: else
  fi
}

inline register(t) {
  if
  :: flag[_pid] ->
       lock_states();
#if WRONG != 9
       d_step { if :: place[_pid] != Left -> place[_pid] = Running :: else fi }
#endif
       flag[_pid] = WAS_WOKEN(place[_pid]);
       unlock_states()
  :: else
  fi;
  if :: MORE0(t) -> more[0] = more[0] | BIT(_pid) :: else fi;
  if :: LESS0(t) -> less[0] = less[0] | BIT(_pid) :: else fi;
  if :: MORE1(t) -> more[1] = more[1] | BIT(_pid) :: else fi;
  if :: LESS1(t) -> less[1] = less[1] | BIT(_pid) :: else fi
}

inline unregister(t) {
  if :: MORE0(t) || LESS0(t) -> more[0] = more[0] & ~BIT(_pid); less[0] = less[0] & ~BIT(_pid) :: else fi;
  if :: MORE1(t) || LESS1(t) -> more[1] = more[1] & ~BIT(_pid); less[1] = less[1] & ~BIT(_pid) :: else fi
}

/* a word is read, and taken where something is there */
inline take_out(word) {
  if
  :: word != 0 -> atomic { called = called | word; word = 0 }
  :: else
  fi
}

inline take_registered(c, is_more, is_less) {
  if :: !is_less -> take_out(more[c]) :: else fi;
#if WRONG == 4
  if :: !is_more && is_less -> take_out(less[c]) :: else fi
#else
  if :: !is_more -> take_out(less[c]) :: else fi
#endif
}

inline notify() {
  if
  :: called != 0 ->
#if WRONG == 6
       d_step { k = 0;
         do :: k < SEATS -> if :: called & BIT(k) -> asleep[k] = false :: else fi; k++ :: else -> break od; k = 0 }
#endif
       lock_states();
       d_step {
         k = 0; waited = 0;
         do
         :: k < SEATS ->
              if
              :: called & BIT(k) ->
#if WRONG == 14
                   if :: place[k] == Waits -> waited = waited | BIT(k) :: else fi;
                   if :: place[k] == Running || place[k] == Waits -> place[k] = Notified :: else fi;
#else
                   if :: AWAITS(place[k]) -> waited = waited | BIT(k) :: else fi;
                   if :: place[k] == Running || AWAITS(place[k]) -> place[k] = Notified :: else fi;
#endif
                   flag[k] = WAS_WOKEN(place[k])
              :: else
              fi;
              k++
         :: else -> break
         od;
         k = 0
       }
       unlock_states();
#if WRONG != 6
       do
       :: k < SEATS -> if :: waited & BIT(k) -> asleep[k] = false :: else fi; k++
       :: else -> break
       od;
       k = 0;
#endif
       waited = 0; called = 0
  :: else
  fi;
  notifying[_pid] = false
}

#define CONCERNS(s) (failed[s] && s != _pid && \
  (((m0 || x0) && NEEDS_MORE0(txn[s])) || (m1 && NEEDS_MORE1(txn[s])) || \
   ((l0 || x0) && NEEDS_LESS0(txn[s])) || (l1 && NEEDS_LESS1(txn[s]))))

/* for the checks: the seats that a commit with these changes concerns; a closing concerns all */
inline note_owed() {
  k = 0;
  do
  :: k < SEATS ->
       if
       :: CONCERNS(k) -> owed[k] = true
       :: else
       fi;
       k++
  :: else -> break
  od;
  k = 0
}

inline take_all() {
#if WRONG == 8
  called = 0
#elif WRONG == 2
  if :: l0 -> called = 0; take_registered(0, false, true) :: else fi;
  if :: l1 -> called = 0; take_registered(1, false, true) :: else fi;
  if :: m0 -> called = 0; take_registered(0, true, false) :: else fi;
  if :: m1 -> called = 0; take_registered(1, true, false) :: else fi;
  if :: x0 -> called = 0; take_registered(0, false, false) :: else fi
#else
  if :: l0 -> take_registered(0, false, true) :: else fi;
  if :: l1 -> take_registered(1, false, true) :: else fi;
  if :: m0 -> take_registered(0, true, false) :: else fi;
  if :: m1 -> take_registered(1, true, false) :: else fi;
  if :: x0 -> take_registered(0, false, false) :: else fi
#endif
  called = called & ~BIT(_pid)
}

/* The locks in rising order, the run, the locks released, the notification. */
inline attempt(t, registers) {
  if :: NAMES0(t) -> atomic { !line[0] -> line[0] = true } :: else fi;
  if :: NAMES1(t) -> atomic { !line[1] -> line[1] = true } :: else fi;
  d_step {
    failed[_pid] = false; owed[_pid] = false;
    kept = CAN(t);
    m0 = false; l0 = false; m1 = false; l1 = false; x0 = false;
    if
    :: kept ->
         if
         :: t==0 && items[0] > 0 -> items[0]--; l0 = true
         :: t==1 && items[1] > 0 -> items[1]--; l1 = true
         :: t==2 && !shut[0] -> items[0]++; m0 = true
         :: t==3 && !shut[1] -> items[1]++; m1 = true
         :: t==4 ->
              if :: items[0] > 0 -> items[0]--; l0 = true :: else fi;
              if :: !shut[1] && items[1] < BOUND -> items[1]++; m1 = true :: else fi
         :: t==5 && items[0] > 0 -> items[0]--; l0 = true
         :: t==5 && items[0] == 0 && !shut[0] && items[1] > 0 -> items[1]--; l1 = true
         :: t==6 && !shut[0] -> shut[0] = true; x0 = true
         :: t==7 ->
              if :: items[1] > 0 -> items[1]--; l1 = true :: else fi;
              if :: !shut[0] && items[0] < BOUND -> items[0]++; m0 = true :: else fi
         :: else
         fi;
         notifying[_pid] = m0 || l0 || m1 || l1 || x0;
         note_owed()
    :: else -> failed[_pid] = registers
    fi
  }
#if WRONG == 5
  take_all();
  notify();
#endif
  if :: NAMES1(t) -> line[1] = false :: else fi;
  if :: NAMES0(t) -> line[0] = false :: else fi;
#if WRONG != 5
  if :: kept -> take_all(); notify() :: else fi;
#endif
  d_step { m0 = false; l0 = false; m1 = false; l1 = false; x0 = false }
}

/* The seat comes to wait with no deadline, .. */
inline begin_wait() {
  lock_states();
#if WRONG == 11
  place[_pid] = Waits;
#else
  if :: place[_pid] == Running -> place[_pid] = Waits :: else fi;
#endif
  look()
}

/* .. or until a deadline, which is never a stall. */
inline begin_wait_until() {
#if WRONG == 13
  begin_wait()
#else
  lock_states();
#if WRONG == 11
  place[_pid] = WaitsUntil;
#else
  if :: place[_pid] == Running -> place[_pid] = WaitsUntil :: else fi;
#endif
#if WRONG == 15
  look()
#endif
#endif
}

inline sleep_once() { atomic { states_locked = false; asleep[_pid] = true } }

active [SEATS] proctype Seat() {
  byte n, t, called, waited, k;
  bool kept, still, m0, l0, m1, l1, x0, until, over;
  byte woken;           /* 0 notified, 1 stalled, 2 its deadline has passed */

  do
  :: n < TXNS ->
       atomic {
         n++;
         if
         :: PICK(0) -> t = 0 :: PICK(1) -> t = 1 :: PICK(2) -> t = 2 :: PICK(3) -> t = 3
         :: PICK(4) -> t = 4 :: PICK(5) -> t = 5 :: PICK(6) -> t = 6 :: PICK(7) -> t = 7
         fi;
         if :: until = false :: TIMES -> until = true fi;
         timed[_pid] = until;
         txn[_pid] = t
       }
       attempt(t, false);
       if
       :: kept -> goto done
       :: else
       fi;
again:
#if WRONG == 1
       attempt(t, true);
       if :: !kept -> register(t) :: else fi;
#else
       register(t);
       attempt(t, true);
#endif
       if :: kept -> goto forgets :: else fi;
       if
       :: !until ->
            begin_wait();
            do
            :: AWAITS(place[_pid]) -> sleep_once(); (!asleep[_pid] || SPURIOUS); asleep[_pid] = false; lock_states()
            :: else -> break
            od;
            woken = (place[_pid] == Stalled -> 1 : 0);
            if :: place[_pid] != Left -> place[_pid] = Running :: else fi;
            flag[_pid] = WAS_WOKEN(place[_pid]);
            unlock_states()
       :: until ->
            /* its deadline may have passed before, or may pass while it waits */
            if
            :: lock_states()
            :: begin_wait_until();
               over = false;
               do
               :: AWAITS(place[_pid]) && !over ->
                    sleep_once();
                    if
                    :: !asleep[_pid]
                    :: over = true
                    fi;
                    asleep[_pid] = false; lock_states()
               :: else -> break
               od;
               over = false
            fi;
            woken = (place[_pid] == Notified -> 0 : 2);
#if WRONG == 12
            if :: woken != 2 -> place[_pid] = Running :: else fi;
#else
            if :: place[_pid] != Left -> place[_pid] = Running :: else fi;
#endif
            flag[_pid] = WAS_WOKEN(place[_pid]);
            unlock_states()
       fi;
       if
       :: woken == 0 -> goto again
       :: else
       fi;
forgets:
       skip;
       d_step { failed[_pid] = false; owed[_pid] = false };
       unregister(t);
       if
       :: !kept && woken == 1 -> woken = 0; break        /* a worker that learns of a stall ends */
       :: else -> woken = 0
       fi;
done:
       atomic { t = 0; until = false; timed[_pid] = false; kept = false; txn[_pid] = 0 }
  :: n > 0 -> break                                       /* it may end early */
  od;
  lock_states();
  place[_pid] = Left;
#if WRONG != 3
  look();
#endif
  unlock_states()
}

/* [2] */
#define NOBODY_NOTIFIES (!notifying[0] && !notifying[1] && (SEATS < 3 || !notifying[SEATS-1]))
#define LOST(s) (AWAITS(place[s]) && owed[s] && NOBODY_NOTIFIES)
active proctype Monitor() {
end:
  atomic { LOST(0) || LOST(1) || (SEATS == 3 && LOST(SEATS-1)) -> assert(false) }
}
