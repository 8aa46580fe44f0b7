/* examples/two_phase_commit.brisk with N members: one queue for each sender, receiver and channel, each of which
   carries one message at most. All votes are tried. What is asked: nothing deadlocks, and every member decides as the
   coordinator does. */
#ifndef N
#define N 2
#endif

mtype = { yes, no, commit, abort };

chan prepare[N] = [1] of { bit };
chan cast[N] = [1] of { mtype };
chan decide[N] = [1] of { mtype };
chan ack[N] = [1] of { bit };

mtype decision = abort;

/* takes from any member from which a message waits */
#if N == 2
#define TAKE(q, x) :: q[0] ? x :: q[1] ? x
#elif N == 3
#define TAKE(q, x) :: q[0] ? x :: q[1] ? x :: q[2] ? x
#elif N == 4
#define TAKE(q, x) :: q[0] ? x :: q[1] ? x :: q[2] ? x :: q[3] ? x
#elif N == 5
#define TAKE(q, x) :: q[0] ? x :: q[1] ? x :: q[2] ? x :: q[3] ? x :: q[4] ? x
#elif N == 6
#define TAKE(q, x) :: q[0] ? x :: q[1] ? x :: q[2] ? x :: q[3] ? x :: q[4] ? x :: q[5] ? x
#elif N == 7
#define TAKE(q, x) :: q[0] ? x :: q[1] ? x :: q[2] ? x :: q[3] ? x :: q[4] ? x :: q[5] ? x :: q[6] ? x
#endif

active proctype C() {
  mtype v = yes;
  bit none;
  bool ok = true;
  byte k;

  for (k : 0 .. N - 1) {
    prepare[k] ! 1
  }
  for (k : 0 .. N - 1) {
    if
    TAKE(cast, v)
    fi;
    if
    :: v == no -> ok = false
    :: else
    fi
  }
  if
  :: ok -> decision = commit
  :: else
  fi;
  for (k : 0 .. N - 1) {
    decide[k] ! decision
  }
  for (k : 0 .. N - 1) {
    if
    TAKE(ack, none)
    fi
  }
}

active [N] proctype P() {
  byte me = _pid - 1;
  mtype vote;
  mtype got = abort;
  bit none;
  bool done;

  if
  :: vote = yes
  :: vote = no
  fi;
  prepare[me] ? none;
  cast[me] ! vote;
  atomic {
    decide[me] ? got;
    assert(got == decision)
  }
  if
  :: got == commit -> done = true
  :: else
  fi;
  ack[me] ! 1
}
