/* N threads that each lock and unlock one mutex R times, by the steps of docs/STEPS.md: the moves of
 * lotexplore, one for one.
 *
 * spin -o1 -o2 -o3 -DN=3 -DR=2 -a mutex.pml
 * gcc -O2 -DSAFETY -DNOREDUCE -o pan pan.c
 * ./pan -m1000000 -w24
 *
 * For the end of a thread, under weak fairness:
 * spin -o1 -o2 -o3 -DN=3 -DR=1 -DENDS -DASKED -a mutex.pml
 * gcc -O2 -DNFAIR=4 -o pan pan.c
 * ./pan -a -f -m10000000 -w26
 *
 * Both count the same states. The -o flags keep SPIN from leaving variables out. */
#define LOCKED 1
#define PARKED 2

mtype = { Out, First, Load, Decide, Check, LeaveQueued, LeaveAgain, Asleep, Taken, In,
          Subtract, Enter, Take, Clear, Leave, Through };

byte word = 0;
bit section = 0;
byte waiting = 0;
byte queue[N];
mtype place[N] = Out;
/* from its wake on, until it owns the mutex or is queued again */
bit retries[N];

/* With ENDS the first thread takes the mutex for ever, with ASKED till the second asks; does the second come to
 * its end in each fair run? To look once more is left out then: SPIN would take it for a step of its own. */
#ifdef ENDS
bit asked = 0;
#define COUNT skip
#define IS_LAST (_pid == 1)
#define MAY_BEGIN (_pid == 1 || !asked)
ltl comes_to_its_end { <> (place[1] == Through) }
#else
#define COUNT rounds++
#define IS_LAST (rounds == R)
#define MAY_BEGIN true
#endif

active [N] proctype Thread() {
  byte seen = 0;
  byte took = 0;
  byte rounds = 0;
end:
  do
  /* a call begins by a move of its own */
  :: atomic { place[_pid] == Out && MAY_BEGIN -> 
#ifdef ASKED
       if :: _pid == 1 -> asked = 1 :: else -> skip fi;
#endif
       place[_pid] = First }
  :: atomic { place[_pid] == First ->
       if :: word == 0 -> word = LOCKED; place[_pid] = In
          :: else -> place[_pid] = Load fi }
  :: atomic { place[_pid] == Load -> seen = word; place[_pid] = Decide }
  /* nobody owns it: the exchange succeeds where the word is still the one that was seen */
  :: atomic { place[_pid] == Decide && (seen == 0 || seen == PARKED) ->
       if :: word == seen -> word = seen + LOCKED; seen = 0; retries[_pid] = 0; place[_pid] = In
          :: else -> seen = word fi }
  /* somebody owns it, and nobody waits */
  :: atomic { place[_pid] == Decide && seen == LOCKED ->
       if :: word == LOCKED -> word = LOCKED + PARKED; seen = LOCKED + PARKED
          :: else -> seen = word fi }
#ifndef ENDS
  :: atomic { place[_pid] == Decide && seen == LOCKED -> seen = 0; place[_pid] = Load }
#endif
  :: atomic { place[_pid] == Decide && seen == LOCKED + PARKED && section == 0 ->
       section = 1; seen = 0; place[_pid] = Check }
  :: atomic { place[_pid] == Check ->
       if :: word == LOCKED + PARKED ->
            queue[waiting] = _pid + 1; waiting++; retries[_pid] = 0; place[_pid] = LeaveQueued
          :: else -> place[_pid] = LeaveAgain fi }
  :: atomic { place[_pid] == LeaveQueued -> section = 0; place[_pid] = Asleep }
  :: atomic { place[_pid] == LeaveAgain -> section = 0; place[_pid] = Load }

  :: atomic { place[_pid] == In -> place[_pid] = Subtract }
  :: atomic { place[_pid] == Subtract ->
       if :: word == LOCKED + PARKED -> place[_pid] = Enter
          :: else -> COUNT;
             if :: IS_LAST -> place[_pid] = Through
                :: else -> place[_pid] = Out fi
       fi;
       word = word - LOCKED }
  :: atomic { place[_pid] == Enter && section == 0 -> section = 1; place[_pid] = Take }
  :: atomic { place[_pid] == Take ->
       if :: waiting > 0 ->
            took = queue[0]; place[took - 1] = Taken;
            do :: seen + 1 < waiting -> queue[seen] = queue[seen + 1]; seen++
               :: else -> break od;
            queue[seen] = 0; seen = 0; waiting--
          :: else -> skip fi;
       if :: waiting == 0 -> place[_pid] = Clear
          :: else -> place[_pid] = Leave fi }
  :: atomic { place[_pid] == Clear -> word = word & LOCKED; place[_pid] = Leave }
  :: atomic { place[_pid] == Leave ->
       section = 0;
       if :: took != 0 -> place[took - 1] = Load; retries[took - 1] = 1; took = 0
          :: else -> skip fi;
       COUNT;
       if :: IS_LAST -> place[_pid] = Through
          :: else -> place[_pid] = Out fi }
  od
}
