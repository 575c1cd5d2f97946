/* The observer of condition 3. It sees what a controller sees: the reports that go in, the
 * runners and faults that come out, the task set and the table; never the player's state.
 */
#include "twin.h"

void twin_observer_begin(struct twin_observer *observer, const struct twin_set *set,
                         const uint8_t *table)
{
    *observer = (struct twin_observer){
        .set = twin_set_in_use(set),
        .hyper_period = (uint32_t)twin_hyper_period(set),
        .table = table,
        .last_runner = TWIN_IDLE,
    };
    /* Before the first job of a task nothing is under way, as after a finish. */
    for (unsigned i = 0; i < set->count; i++)
        observer->jobs[i] =
            (struct twin_seen_job){.finished = true, .keeping = true, .quiet = true};
}

static struct twin_seen_job job_released_at(uint64_t now)
{
    return (struct twin_seen_job){.release = now, .keeping = true, .quiet = true};
}

static void see_false_report(struct twin_seen_job *job)
{
    job->stopped = true;
    if (job->finished)
        job->quiet = false;
    else
        job->keeping = false;
}

static void see_runner_report(struct twin_seen_job *job, const struct twin_task *task,
                              uint8_t report)
{
    if (report == TWIN_STEP_FINISHED) {
        job->finished = job->step + 1 == task->steps;
        job->waiting = !job->finished;
        job->waited = 0;
    } else if (report != TWIN_NOTHING) {
        see_false_report(job);
    } else if (job->got == task->pattern[2 * job->step]) {
        job->keeping = false;
        job->stopped = true;
    }
}

/* A wait that isn't over at this tick takes the slot to come as well. */
static void see_waiter_report(struct twin_seen_job *job, const struct twin_task *task,
                              uint8_t report)
{
    job->waited++;
    if (report == TWIN_WAIT_ENDED) {
        job->waiting = false;
        job->step++;
        job->got = 0;
    } else if (report != TWIN_NOTHING) {
        see_false_report(job);
    } else if (job->waited >= task->pattern[2 * job->step + 1]) {
        job->keeping = false;
    }
}

static void see_report(struct twin_seen_job *job, const struct twin_task *task, bool ran,
                       uint8_t report)
{
    if (job->stopped)
        return;
    if (ran)
        see_runner_report(job, task, report);
    else if (job->waiting)
        see_waiter_report(job, task, report);
    else if (report != TWIN_NOTHING)
        see_false_report(job);
}

/* At the tick that starts at the deadline a keeping job must be finished. */
static enum twin_finding judge_deadline(const struct twin_seen_job *job,
                                        const struct twin_task *task, uint64_t now)
{
    bool due = job->release + task->deadline == now;

    return due && job->keeping && !job->finished ? TWIN_KEEPER_UNFINISHED
                                                 : TWIN_NOTHING_WRONG;
}

static enum twin_finding judge_fault(struct twin_seen_job *job)
{
    job->stopped = true;
    return job->keeping && job->quiet ? TWIN_KEEPER_FAULTED : TWIN_NOTHING_WRONG;
}

static enum twin_finding judge_slot(struct twin_seen_job *job, const struct twin_task *task)
{
    if (job->finished)
        return TWIN_SLOT_AFTER_FINISH;
    if (job->waiting)
        return TWIN_SLOT_WHILE_WAITING;
    if (job->got >= task->pattern[2 * job->step])
        return TWIN_SLOT_BEYOND_STEP;
    if (job->stopped)
        return TWIN_SLOT_AFTER_STOP;
    job->got++;
    return TWIN_NOTHING_WRONG;
}

static enum twin_finding first_of(enum twin_finding a, enum twin_finding b)
{
    return a != TWIN_NOTHING_WRONG ? a : b;
}

/* One task at one tick, up to the slot it may get. An overrun or false report speaks of
 * the job before a restart, lateness of the job after it. */
static enum twin_finding observe_task(struct twin_observer *observer, unsigned i,
                                      uint8_t report, uint8_t fault)
{
    const struct twin_task *task = &observer->set.tasks[i];
    struct twin_seen_job *job = &observer->jobs[i];

    see_report(job, task, observer->last_runner == i, report);
    enum twin_finding finding = judge_deadline(job, task, observer->now);
    if (fault == TWIN_OVERRUN || fault == TWIN_FALSE_REPORT)
        finding = first_of(finding, judge_fault(job));
    if (observer->now % task->period == 0)
        *job = job_released_at(observer->now);
    if (fault == TWIN_LATE)
        finding = first_of(finding, judge_fault(job));
    if (fault > TWIN_FALSE_REPORT)
        finding = first_of(finding, TWIN_UNKNOWN_FAULT);
    return finding;
}

static enum twin_finding observe_runner(struct twin_observer *observer, uint8_t runner)
{
    if (runner == TWIN_IDLE)
        return TWIN_NOTHING_WRONG;
    if (runner != observer->table[observer->now % observer->hyper_period])
        return TWIN_NOT_THE_OWNER;
    return judge_slot(&observer->jobs[runner], &observer->set.tasks[runner]);
}

enum twin_finding twin_observe(struct twin_observer *observer, const uint8_t *reports,
                               uint8_t runner, const uint8_t *faults)
{
    enum twin_finding finding = TWIN_NOTHING_WRONG;

    for (unsigned i = 0; i < observer->set.count; i++)
        finding = first_of(finding, observe_task(observer, i, reports[i], faults[i]));
    finding = first_of(finding, observe_runner(observer, runner));
    observer->last_runner = runner;
    observer->now++;
    return finding;
}
