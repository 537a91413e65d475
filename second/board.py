"""The board, tick by tick. States are values: every call hands back a new one."""

from collections import namedtuple

from sheet import (
    ACCEPTED, CLOCK, EARLY, LIVE, MOST_PROCESSORS, MOST_ROWS, ROW, STATE, ZERO_ROW, ZERO_SET,
    read, refused, set_fault,
)

LAST_CLOCK = 1_000_000_000

ABSENT, WAITING, MEMORY, COMPUTATION = range(4)

# A job's standing is a kind and the ticks left (0 where the kind carries none).
Job = namedtuple("Job", "ever last kind left worst completed")
# hands: for each of 8 processors the row in hand, or None; jobs: one for each of 32 rows.
State = namedtuple("State", "set clock hands jobs")
Answer = namedtuple("Answer", "refusal token completed")  # token: a processor or None; completed: rows

NO_JOB = Job(False, 0, ABSENT, 0, 0, 0)
ZERO_STATE = State(ZERO_SET, 0, (None,) * MOST_PROCESSORS, (NO_JOB,) * MOST_ROWS)


def in_phase(job):
    return job.kind == MEMORY or job.kind == COMPUTATION


def job_fits(job, row, clock):
    """What the shape asks of one row below n by itself."""
    if job.last > clock or job.worst > clock or job.completed > clock:
        return False
    if not job.ever and job != NO_JOB:
        return False
    if job.kind == MEMORY:
        return 1 <= job.left <= row.m
    if job.kind == COMPUTATION:
        return 1 <= job.left <= row.c
    return True


def has_shape(state):
    """The stated shape."""
    the_set, clock, hands, jobs = state
    if set_fault(the_set).number or clock > LAST_CLOCK:
        return False
    N, n, rows = the_set
    for r in range(n, MOST_ROWS):
        if rows[r] != ZERO_ROW or jobs[r] != NO_JOB:
            return False
    for r in range(n):
        job = jobs[r]
        if not job_fits(job, rows[r], clock):
            return False
        if in_phase(job) != (hands[rows[r].processor] == r):
            return False
    for p in range(MOST_PROCESSORS):
        held = hands[p]
        if held is None:
            continue
        if p >= N or held >= n or rows[held].processor != p:
            return False
    return True


def start(sheet):
    """A refusal and a state."""
    refusal, the_set = read(sheet)
    if refusal.number:
        return refusal, ZERO_STATE
    return ACCEPTED, ZERO_STATE._replace(set=the_set)


def release(state, row):
    """A refusal and a state."""
    if not has_shape(state):
        return refused(STATE), state
    if row >= state.set.n:
        return refused(ROW), state
    job = state.jobs[row]
    if job.ever and state.clock - job.last < state.set.rows[row].T:
        return refused(EARLY), state
    if job.kind != ABSENT:
        return refused(LIVE), state
    jobs = list(state.jobs)
    jobs[row] = job._replace(ever=True, last=state.clock, kind=WAITING)
    return ACCEPTED, state._replace(jobs=tuple(jobs))


def tick(state):
    """An answer and a state."""
    if not has_shape(state):
        return Answer(refused(STATE), None, []), state
    if state.clock == LAST_CLOCK:
        return Answer(refused(CLOCK), None, []), state
    N, n, rows = state.set
    t = state.clock
    hands, jobs = list(state.hands), list(state.jobs)

    # 1. Each processor with none in hand takes its first waiting row.
    for r in range(n):
        p = rows[r].processor
        if hands[p] is None and jobs[r].kind == WAITING:
            hands[p] = r
            if rows[r].m == 0:
                jobs[r] = jobs[r]._replace(kind=COMPUTATION, left=rows[r].c)
            else:
                jobs[r] = jobs[r]._replace(kind=MEMORY, left=rows[r].m)

    # 2. The token.
    token = None
    for p in range(N):
        if token is None and hands[p] is not None and jobs[hands[p]].kind == MEMORY:
            token = p

    # 3. The ticks lost by the token's job and by every job in computation after step 1.
    for p in range(N):
        r = hands[p]
        if r is None:
            continue
        job = jobs[r]
        if job.kind == COMPUTATION or p == token:
            job = job._replace(left=job.left - 1)
        if job.kind == MEMORY and job.left == 0:
            job = job._replace(kind=COMPUTATION, left=rows[r].c)
        jobs[r] = job

    # 4. A job with nothing left completes.
    completed = []
    for r in range(n):
        job = jobs[r]
        if in_phase(job) and job.left == 0:
            worst = max(job.worst, t + 1 - job.last)
            jobs[r] = job._replace(kind=ABSENT, worst=worst, completed=job.completed + 1)
            hands[rows[r].processor] = None
            completed.append(r)

    # 5. The clock.
    return Answer(ACCEPTED, token, completed), State(state.set, t + 1, tuple(hands), tuple(jobs))
