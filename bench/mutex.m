-- N threads that each lock and unlock one mutex R times, by the steps of docs/STEPS.md: the moves of
-- lotexplore, one for one, as in mutex.pml.
--
-- rumur --deadlock-detection off --output mutex.c mutex.m
-- gcc -std=c11 -O3 -march=native -o mutex mutex.c -lpthread
-- ./mutex
--
-- Both count the same states. The first two numbers are replaced by bench/explore.py.
const
  N: 3;
  R: 2;

type
  thread: 0..N - 1;
  location: enum { Out, First, Load, Decide, Check, LeaveQueued, LeaveAgain, Asleep, Taken, In,
                   Subtract, Enter, Take, Unpark, Leave, Through };

var
  -- 1 if it is locked, and 2 more if it is parked
  word: 0..3;
  section: boolean;
  waiting: 0..N;
  queue: array [thread] of 0..N;
  place: array [thread] of location;
  -- from its wake on, until it owns the mutex or is queued again
  retries: array [thread] of boolean;
  seen: array [thread] of 0..3;
  took: array [thread] of 0..N;
  rounds: array [thread] of 0..R;

procedure finish_round(t: thread);
begin
  rounds[t] := rounds[t] + 1;
  if rounds[t] = R then place[t] := Through; else place[t] := Out; end;
end;

startstate begin
  word := 0;
  section := false;
  waiting := 0;
  for t: thread do
    queue[t] := 0;
    place[t] := Out;
    retries[t] := false;
    seen[t] := 0;
    took[t] := 0;
    rounds[t] := 0;
  end;
end;

ruleset t: thread do
  -- a call begins by a move of its own
  rule place[t] = Out ==> begin place[t] := First; end;

  rule place[t] = First ==> begin
    if word = 0 then word := 1; place[t] := In; else place[t] := Load; end;
  end;

  rule place[t] = Load ==> begin seen[t] := word; place[t] := Decide; end;

  -- nobody owns it: the exchange succeeds where the word is still the one that was seen
  rule place[t] = Decide & (seen[t] = 0 | seen[t] = 2) ==> begin
    if word = seen[t] then
      word := seen[t] + 1; seen[t] := 0; retries[t] := false; place[t] := In;
    else
      seen[t] := word;
    end;
  end;

  -- somebody owns it, and nobody waits
  rule place[t] = Decide & seen[t] = 1 ==> begin
    if word = 1 then word := 3; seen[t] := 3; else seen[t] := word; end;
  end;

  rule place[t] = Decide & seen[t] = 1 ==> begin seen[t] := 0; place[t] := Load; end;

  rule place[t] = Decide & seen[t] = 3 & !section ==> begin
    section := true; seen[t] := 0; place[t] := Check;
  end;

  rule place[t] = Check ==> begin
    if word = 3 then
      queue[waiting] := t + 1; waiting := waiting + 1; retries[t] := false; place[t] := LeaveQueued;
    else
      place[t] := LeaveAgain;
    end;
  end;

  rule place[t] = LeaveQueued ==> begin section := false; place[t] := Asleep; end;
  rule place[t] = LeaveAgain ==> begin section := false; place[t] := Load; end;
  rule place[t] = In ==> begin place[t] := Subtract; end;

  rule place[t] = Subtract ==> begin
    if word = 3 then place[t] := Enter; else finish_round(t); end;
    word := word - 1;
  end;

  rule place[t] = Enter & !section ==> begin section := true; place[t] := Take; end;

  rule place[t] = Take ==> begin
    if waiting > 0 then
      took[t] := queue[0];
      place[queue[0] - 1] := Taken;
      for k: 0..N - 2 do queue[k] := queue[k + 1]; end;
      queue[N - 1] := 0;
      waiting := waiting - 1;
    end;
    if waiting = 0 then place[t] := Unpark; else place[t] := Leave; end;
  end;

  rule place[t] = Unpark ==> begin word := word % 2; place[t] := Leave; end;

  rule place[t] = Leave ==> begin
    section := false;
    if took[t] != 0 then
      place[took[t] - 1] := Load; retries[took[t] - 1] := true; took[t] := 0;
    end;
    finish_round(t);
  end;
end;
