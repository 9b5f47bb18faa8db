/* A model of the waiting of the Rust crate: threads and futures that wait in the lines of a domain.

   What each part stands for, as FILE: FUNCTIONS
     add, remove           bindings/rust/src/waiting/waiters.rs: add, remove
     wake, close           bindings/rust/src/waiting/waiters.rs: wake_for, wake, wake_all, wake_first
     give_up               bindings/rust/src/shared.rs: give_up
                           bindings/rust/src/waiting/waiters.rs: hand_on
     wishes, single        bindings/rust/src/waiting/wishes.rs: of, any_change
     commit                bindings/rust/src/shared.rs: changed, replied
     a try, and a ticket   bindings/rust/src/inner.rs: run, wait, poll
                           bindings/rust/src/ticket.rs: wait, end_wait, drop
     wake_them             bindings/rust/src/guard.rs: drop, release
                           bindings/rust/src/waiting/sleeper.rs: wake_by_ref
     rest                  bindings/rust/src/waiting/sleeper.rs: prepare, rest
     the last sender       bindings/rust/src/last_sender.rs: drop

   Channel 0 has no bound and can be closed. Channel 1 holds one item. Each seat runs OPS transactions of its menu,
   each as a thread, as a thread with a deadline, as a future, or as a future that is dropped or polled at any time.

   All that the lock of a domain protects changes in one step, since no other thread sees it meanwhile. The wakes come
   after it, one by one. A thread's `prepare` is part of that step: only a late wake of an earlier wait can come
   between, and it has the same effect just before or just after. Looks before a thread sleeps are one look or none.

   What is checked:
   - no lost wake-up: if no step is possible, no seat waits whose transaction could commit;
   - a line has only seats that wait, and no seat that ended or was dropped;
   - first come, first served: the seat that is chosen from a line of those that take one item came first.

   -DWRONG=n changes one step (models/README.md). The search must find an error. */

#ifndef WRONG
#define WRONG 0
#endif
#ifndef SEATS
#define SEATS 3
#endif
#ifndef OPS
#define OPS 1
#endif
#ifndef SENDERS
#define SENDERS 1
#endif

/* Transactions, and bits of the menus. */
#define W0 1      /* write 0, which never waits */
#define R0 2      /* read 0 */
#define W1 4      /* write 1 */
#define R1 8      /* read 1 */
#define SELECT 16 /* read 0, or else read 1 */
#define PEEK 32   /* peek 0 */
#define MOVE 64   /* read 0, write 1 */
#define TWICE 128 /* read 0, write 0, write 0 */
#define DROP 256  /* a sender of 0 is dropped: the last one closes 0 */

/* How a seat waits. */
#define THREAD 1
#define TIMED 2
#define FUTURE 4
#define DROPPED 8

#ifndef MENU0
#define MENU0 R0
#endif
#ifndef MENU1
#define MENU1 MENU0
#endif
#ifndef MENU2
#define MENU2 MENU1
#endif
#ifndef MENU3
#define MENU3 MENU2
#endif
#ifndef WAYS0
#define WAYS0 THREAD
#endif
#ifndef WAYS1
#define WAYS1 WAYS0
#endif
#ifndef WAYS2
#define WAYS2 WAYS1
#endif
#ifndef WAYS3
#define WAYS3 WAYS2
#endif
#define MENU(s) ((s) == 0 -> MENU0 : ((s) == 1 -> MENU1 : ((s) == 2 -> MENU2 : MENU3)))
#define WAYS(s) ((s) == 0 -> WAYS0 : ((s) == 1 -> WAYS1 : ((s) == 2 -> WAYS2 : WAYS3)))

/* The states of a sleeper. A future is woken to AWAKE, too. */
#define AWAKE 0
#define LOOKING 1
#define ASLEEP 2

/* The lines. */
#define ITEMS0 0
#define ITEMS1 1
#define SPACE1 2
#define LINES 3
#define NONE 255

byte items[2];
bool closed;
byte senders = SENDERS;

/* The seats of each line, as bits, and of the map of those that wait. Within a line the ticket is the order. */
byte single[LINES];
byte several[LINES];
byte waiting;
byte ticket[SEATS];
byte next_ticket = 1;
/* When the wait of a seat began. Only the check reads it. */
byte came[SEATS];
byte clock = 1;

byte state[SEATS];
bool token[SEATS];
short op[SEATS];
bool rests[SEATS];

#define BIT(s) (1 << (s))

#define CAN(o) ( \
  (o) == W0 || ((o) == W1 && items[1] == 0) || ((o) == R1 && items[1] > 0) || \
  (((o) == R0 || (o) == PEEK || (o) == TWICE) && (items[0] > 0 || closed)) || \
  ((o) == SELECT && (items[0] > 0 || closed || items[1] > 0)) || \
  ((o) == MOVE && ((items[0] > 0 && items[1] == 0) || (items[0] == 0 && closed))))

#define WISHES(o) ((o) == R1 -> 2 : ((o) == W1 -> 4 : ((o) == SELECT -> 3 : ((o) == MOVE -> 5 : 1))))

#if WRONG == 8
#define IS_SINGLE(o) ((o) != PEEK && (o) != MOVE)
#elif WRONG == 9
#define IS_SINGLE(o) ((o) != SELECT && (o) != MOVE)
#else
#define IS_SINGLE(o) ((o) != SELECT && (o) != PEEK && (o) != MOVE)
#endif

inline add(s) {
  if
  :: waiting & BIT(s)
  :: else ->
#if WRONG == 7
       ticket[s] = next_ticket; next_ticket++;
#else
       if :: ticket[s] == 0 -> ticket[s] = next_ticket; next_ticket++ :: else fi;
#endif
       if :: came[s] == 0 -> came[s] = clock; clock++ :: else fi;
       k = 0;
       do
       :: k == LINES -> break
       :: else ->
            if
            :: (WISHES(op[s]) & BIT(k)) && IS_SINGLE(op[s]) -> single[k] = single[k] | BIT(s)
            :: (WISHES(op[s]) & BIT(k)) && !IS_SINGLE(op[s]) -> several[k] = several[k] | BIT(s)
            :: else
            fi;
            k++
       od;
       waiting = waiting | BIT(s)
  fi
}

inline remove(s) {
  assert(waiting & BIT(s));
  waiting = waiting & ~BIT(s);
  k = 0;
  do
  :: k == LINES -> break
  :: else ->
       if
       :: WISHES(op[s]) & BIT(k) ->
            single[k] = single[k] & ~BIT(s);
            several[k] = several[k] & ~BIT(s);
#if WRONG == 6
            break
#endif
       :: else
       fi;
       k++
  od
}

/* Chooses the first of a line, and all that wait for it among other things. */
inline wake(l) {
  first = NONE;
  n = 0;
  do
  :: n == SEATS -> break
  :: else ->
       if
       :: (single[l] & BIT(n)) && (first == NONE || ticket[n] < ticket[first]) -> first = n
       :: else
       fi;
       n++
  od;
  n = 0;
  do
  :: n == SEATS -> break
  :: else ->
       assert(!(single[l] & BIT(n)) || came[first] <= came[n]);
       if
       :: n != first && (several[l] & BIT(n)) -> remove(n); woken = woken | BIT(n)
       :: else
       fi;
       n++
  od;
  if :: first != NONE -> remove(first); woken = woken | BIT(first) :: else fi;
  n = 0; first = 0; k = 0
}

inline close() {
  closed = true;
#if WRONG == 10
  wake(ITEMS0)
#else
  do
  :: single[ITEMS0] | several[ITEMS0] -> wake(ITEMS0)
  :: else -> break
  od
#endif
}

inline read0() { if :: items[0] > 0 -> items[0]-- :: else fi }
inline write0() { if :: !closed -> items[0]++; wake(ITEMS0) :: else fi }
#if WRONG == 11
inline read1() { items[1]-- }
#else
inline read1() { items[1]--; wake(SPACE1) }
#endif
inline write1() { items[1]++; wake(ITEMS1) }

inline commit(o) {
  if
  :: o == W0 -> write0()
  :: o == R0 -> read0()
  :: o == W1 -> write1()
  :: o == R1 -> read1()
  :: o == SELECT -> if :: items[0] > 0 || closed -> read0() :: else -> read1() fi
  :: o == PEEK
  :: o == MOVE -> if :: items[0] > 0 -> read0(); write1() :: else fi
  :: o == TWICE ->
       if
       :: items[0] > 0 -> read0(); write0();
#if WRONG == 12
            if :: !closed -> items[0]++ :: else fi
#else
            write0()
#endif
       :: else
       fi
  fi
}

/* The ticket of a seat ends. If no seat has one, the numbers begin again, which keeps the search small. */
inline forget(s) {
  ticket[s] = 0;
  came[s] = 0;
  op[s] = 0;
  k = 0;
  do :: k < SEATS && ticket[k] == 0 -> k++ :: else -> break od;
  if :: k == SEATS -> next_ticket = 1; clock = 1 :: else fi;
  k = 0
}

inline committed(s) {
#if WRONG != 14
  if :: waiting & BIT(s) -> remove(s) :: else fi;
#endif
  forget(s)
}

/* A wake that was not used goes to others. */
inline give_up(s) {
  if
  :: ticket[s] == 0
  :: ticket[s] != 0 && (waiting & BIT(s)) -> remove(s)
  :: ticket[s] != 0 && !(waiting & BIT(s)) ->
#if WRONG == 1
       skip
#else
       if
       :: IS_SINGLE(op[s]) ->
            m = 0;
            do
            :: m == LINES -> break
            :: else -> if :: WISHES(op[s]) & BIT(m) -> wake(m) :: else fi; m++
            od;
            m = 0
       :: else
       fi
#endif
  fi;
  forget(s)
}

/* Wakes those that were chosen, without the lock. */
inline wake_them() {
  do
  :: woken == 0 -> break
  :: else ->
       d_step {
         do :: !(woken & BIT(n)) -> n++ :: else -> break od;
         woken = woken & ~BIT(n);
         was = state[n];
#if WRONG == 13
         if :: was == ASLEEP -> state[n] = AWAKE :: else fi
#else
         state[n] = AWAKE
#endif
       };
       if :: was == ASLEEP -> token[n] = true :: else fi;
       d_step { was = 0; n = 0 }
  od
}

/* Enters the lines, under the lock. */
inline enter(s) {
  add(s);
#if WRONG != 5
  if :: way == THREAD || way == TIMED -> state[s] = LOOKING :: else fi;
#endif
  k = 0;
  rests[s] = true
}

proctype Seat(byte me) {
  byte done, woken, way, n, k, m, first, was;
  bool over, ended;
  do
  :: done == OPS -> break
  :: else ->
       atomic {
         if
         :: MENU(me) & W0 -> op[me] = W0
         :: MENU(me) & R0 -> op[me] = R0
         :: MENU(me) & W1 -> op[me] = W1
         :: MENU(me) & R1 -> op[me] = R1
         :: MENU(me) & SELECT -> op[me] = SELECT
         :: MENU(me) & PEEK -> op[me] = PEEK
         :: MENU(me) & MOVE -> op[me] = MOVE
         :: MENU(me) & TWICE -> op[me] = TWICE
         :: MENU(me) & DROP -> op[me] = DROP
         fi;
         if
         :: WAYS(me) & THREAD -> way = THREAD
         :: WAYS(me) & TIMED -> way = TIMED
         :: WAYS(me) & FUTURE -> way = FUTURE
         :: WAYS(me) & DROPPED -> way = DROPPED
         fi;
         over = false;
         ended = false
       };
       if
       :: op[me] == DROP ->
            atomic { senders--; op[me] = 0; ended = senders > 0 };
            if :: !ended -> d_step { close() }; wake_them() :: else fi;
            goto next
       :: else
       fi;
again:
       /* The runtime notes that a future is polled, and then polls it. */
       if :: way == FUTURE || way == DROPPED -> state[me] = LOOKING :: else fi;
#if WRONG == 4
       if
       :: op[me] == W0 -> d_step { wake(ITEMS0) }; wake_them(); skip; d_step { items[0]++; forget(me) }; goto next
       :: else
       fi;
#endif
       /* Under the lock. */
       atomic {
         rests[me] = false;
         if
#if WRONG == 2
         :: over -> d_step { if :: waiting & BIT(me) -> remove(me) :: else fi; forget(me); ended = true }
         :: CAN(op[me]) && !over -> d_step { commit(op[me]); committed(me); ended = true }
#else
         :: CAN(op[me]) -> d_step { commit(op[me]); committed(me); ended = true }
#endif
         :: !CAN(op[me]) && way == TIMED -> d_step { give_up(me); ended = true }
#if WRONG == 3
         :: !CAN(op[me]) && !over
#else
         :: !CAN(op[me]) && !over -> d_step { enter(me) }
#endif
         fi
       };
#if WRONG == 3
       if :: !ended -> d_step { enter(me) } :: else fi;
#endif
       wake_them();
       if :: ended -> goto next :: else fi;
#if WRONG == 5
       if :: way == THREAD || way == TIMED -> state[me] = LOOKING :: else fi;
#endif
       if
       :: way == FUTURE ->
end_pending: state[me] == AWAKE
       :: way == DROPPED ->
            if
            :: state[me] == AWAKE
            :: skip /* polled for another reason */
            :: d_step { rests[me] = false; give_up(me); ended = true } -> wake_them(); goto next
            fi
       :: else ->
#if WRONG == 15
            if :: state[me] == AWAKE -> goto again :: else -> state[me] = ASLEEP fi;
#else
            if
            :: atomic { state[me] == LOOKING -> state[me] = ASLEEP }
            :: state[me] == AWAKE -> goto again
            fi;
#endif
            do
            :: state[me] != ASLEEP -> break
            :: state[me] == ASLEEP ->
end_park:        if
                 :: atomic { token[me] -> token[me] = false }
                 :: way == TIMED -> over = true; break
                 fi
            od
       fi;
       goto again;
next:
       atomic {
         assert(!(waiting & BIT(me)) && !rests[me]);
         /* The next wait begins with LOOKING, so this only keeps the search small. A late wake finds ASLEEP. */
         if :: state[me] == LOOKING -> state[me] = AWAKE :: else fi;
         done++; way = 0; over = false; ended = false
       }
  od
}

init {
  atomic {
    byte s = 0;
    do :: s == SEATS -> break :: else -> run Seat(s); s++ od
  }
}

/* No step is possible any more. */
active proctype End() {
  byte s, l;
end:
  timeout ->
    d_step {
      s = 0;
      do
      :: s == SEATS -> break
      :: else ->
           assert(!(rests[s] && CAN(op[s])));
           assert(rests[s] == ((waiting & BIT(s)) != 0));
           l = 0;
           do
           :: l == LINES -> break
           :: else -> assert(rests[s] || !((single[l] | several[l]) & BIT(s))); l++
           od;
           s++
      od
    }
}
