# The same question to python-dateutil, on every 20th day of 2199; the best of some rounds.
from datetime import datetime, timedelta
from time import perf_counter_ns

from dateutil.rrule import FR, MO, WEEKLY, rrule

rule = rrule(WEEKLY, interval=2, byweekday=FR, wkst=MO, dtstart=datetime(2000, 1, 14), until=datetime(2201, 3, 28))
days = [datetime(2199, 1, 1) + timedelta(days=n) for n in range(0, 365, 20)]
best = float("inf")
for _ in range(5):
    start = perf_counter_ns()
    for day in days:
        rule.after(day, inc=True)
    best = min(best, (perf_counter_ns() - start) / len(days))
assert rule.after(days[0], inc=True) == datetime(2000, 1, 1) + timedelta(days=72_687)
print(f"{'python-dateutil':<18} {best:>12.1f}")
