"""Replays the journal of the program `workers` on a plain list of jobs: each reply must be what the list replies, each pass
must have its own events as receipts, in their order and at their places, and at the end each job must have ended. Reads the
standard error of a run with the word `journal`, and says how many events there were. It takes jobs to solve alone."""
import sys


# A job: who submitted it, what is asked, the worker and the claim where it runs, and the answer once there is one.
class Job:
    def __init__(self, owner, asked):
        self.owner, self.asked, self.runs, self.answer = owner, asked, None, None


class Jobs:
    def __init__(self, most_open):
        self.most_open, self.jobs, self.claims, self.shut = most_open, [], 0, False

    def own(self, caller, number):
        job = self.jobs[int(number) - 1] if 1 <= int(number) <= len(self.jobs) else None
        return job if job and job.owner == caller else None

    def submit(self, caller, asked):
        if self.shut:
            return ["fault", "18"]
        if sum(job.owner == caller and job.answer is None for job in self.jobs) >= self.most_open:
            return ["fault", "13"]
        self.jobs.append(Job(caller, asked))
        return ["job", str(len(self.jobs))]

    # The first that waits.
    def claim(self, worker):
        for place, job in enumerate(self.jobs):
            if job.answer is None and job.runs is None:
                self.claims += 1
                job.runs = (worker, str(self.claims))
                return ["claimed", str(place + 1), str(self.claims), job.asked]
        return ["closing"] if self.shut else ["nothing waits"]

    def finish(self, worker, number, claim, ended, asked):
        job = self.jobs[int(number) - 1] if 1 <= int(number) <= len(self.jobs) else None
        if job is None or job.answer is not None or job.runs != (worker, claim):
            return ["stale"]
        if ended == "stopped":
            job.runs = None
            return ["recorded"]
        if ended != "spent" and asked != job.asked:
            return ["stale"]
        job.answer = ended
        return ["recorded"]

    def fetch(self, caller, number):
        job = self.own(caller, number)
        if job is None:
            return ["fault", "16"]
        return ["state", number, job.answer or ("running" if job.runs else "waiting")]

    # What a call is told, and what the journal says that it was told.
    def apply(self, caller, words):
        verb, *rest = words
        if verb == "shut":
            self.shut = True
            return ["shut"], rest
        fields = {"submit": 1, "claim": 0, "finish": 4, "fetch": 1}[verb]
        return getattr(self, verb)(caller, *rest[:fields]), rest[fields:]


lines = [line.rstrip("\n").split("\t") for line in sys.stdin]
events = [words[1:] for words in lines if words[0] == "event"]
receipts = [words[1:] for words in lines if words[0] == "receipt"]
jobs = Jobs(64)
for place, (caller, *words) in enumerate(events):
    told, reply = jobs.apply(caller, words)
    if told != reply:
        sys.exit(f"replay: event {place} of pass {caller} was told {reply}, and is to be told {told}")
given = {}
for number, place, *words in receipts:
    given.setdefault(number, []).append((int(place), words))
held = {}
for place, (caller, *words) in enumerate(events):
    held.setdefault(caller, []).append((place, words))
if given != held:
    sys.exit("replay: the receipts of some pass are not its events")
open_jobs = sum(job.answer is None for job in jobs.jobs)
if not events or open_jobs:
    sys.exit(f"replay: {len(events)} events, and {open_jobs} jobs have not ended")
workers = sum(1 for pass_events in held.values() if any(words[0] == "finish" for _, words in pass_events))
print(f"{len(events)} events of {len(jobs.jobs)} jobs replayed; {workers} workers finished some")
