"""A plan for one link: three contracts in cells per second are brought into rate codes, opened, shared out at a port,
and run for a second against the explicit rates that the port gives back. Read it from top to bottom; plan.out is what
it prints."""

from dataclasses import replace
from heapq import heappop, heappush
from pathlib import Path
import sys

sys.path.insert(0, str(Path(__file__).resolve().parents[1]))  # the binding itself
import abr  # noqa: E402, after its path

MS = 1_000_000
SECOND = 1_000 * MS
ROUND_TRIP = 20 * MS
VCI = 32

# ---- 1. The plan, in cells per second: peak, minimum and initial rate of each VPI.

PLAN = {
    1: abr.Contract(pcr=400.3, mcr=50.0, icr=200.0),
    2: abr.Contract(pcr=333.25, mcr=0.0, icr=333.25),
    3: abr.Contract(pcr=150.0, mcr=20.05, icr=100.0),
}

print("1. Rate codes, and what the plan has more than they give")
codes = {}
for vpi, contract in PLAN.items():
    imported = [abr.import_rate(cells) for cells in contract]
    codes[vpi] = [each.code for each in imported]
    for name, cells, (code, remainder) in zip(contract._fields, contract, imported):
        assert abr.rate(code) / abr.RATE_ONE + remainder == cells  # nothing is rounded
        print(f"   VPI {vpi} {name} {cells:7.2f} = 0x{code:04X} {abr.rate(code) / abr.RATE_ONE:8.3f} + {remainder:.6f}")

try:
    abr.import_rate(0.5)
except abr.Refused as refused:
    print(f"   0.5 cells per second: {refused}")

# ---- 2. The contracts are opened with the house set, and exported again.

print("2. Opened, and exported")
table = abr.Table()
for vpi in PLAN:
    table.open(vpi, VCI, 0, abr.Params.house(*codes[vpi]))
    exported = table.export(vpi, VCI)
    assert [abr.import_rate(cells).code for cells in exported] == codes[vpi]
    print(f"   VPI {vpi} pcr {exported.pcr:.3f} mcr {exported.mcr:.3f} icr {exported.icr:.3f}")

# ---- 3. What each may have at a port of 600 cells per second, if all demand their peaks.

CAPACITY = 600 * abr.RATE_ONE
demands = {vpi: abr.rate(codes[vpi][0]) for vpi in PLAN}
share = abr.fair_share(CAPACITY, demands.values())
print("3. The port")
print(f"   600 cells per second among {len(demands)}: at most {share / abr.RATE_ONE:.3f} each")
wide = abr.fair_share(900 * abr.RATE_ONE, demands.values())
print(f"   900 among them: {'no limit' if wide is None else wide / abr.RATE_ONE}")

# ---- 4. A second of the link. The caller sleeps until table.next_ready() and sends; a forward cell comes back after
# ---- the round trip with the explicit rate of the port.


def number(value: int) -> bytes:
    """A number of a trace: groups of seven bits, the low group first."""
    groups = [value >> shift & 0x7F for shift in range(0, max(value.bit_length(), 1), 7)]
    return bytes([group | 0x80 for group in groups[:-1]] + groups[-1:])


print("4. A second against the port")
for vpi in PLAN:
    table.offer(vpi, VCI, 1_000)
returns, sent, now = [], {vpi: dict.fromkeys(abr.Kind, 0) for vpi in PLAN}, 0
trace, last = number(5) + number(7), None  # of VPI 1: Nrm 32, Trm 100 ms
shown = 0
while True:
    ready = table.next_ready()
    back = returns[0][0] if returns else SECOND
    now = max(now, min(SECOND if ready is None else ready, back, SECOND))  # a ready instant may have passed
    while shown <= now:
        rates = "  ".join(f"{each.acr / abr.RATE_ONE:8.3f}" for each in table.connections())  # opened in this order
        print(f"   {shown // MS:5} ms  {rates}")
        shown += SECOND // 10
    if now == SECOND:
        break
    if now == back:
        table.receive(heappop(returns)[1])
        continue
    slot = table.slot(now)
    sent[slot.vpi][slot.kind] += 1
    if slot.vpi == 1:
        trace += number(now - last if last is not None else 0) + number(slot.kind) + number(slot.acr_before)
        last = now
    if slot.kind is abr.Kind.FORWARD:
        backward = abr.write_rm(replace(abr.read(slot.cell), dir=1))
        heappush(returns, (now + ROUND_TRIP, abr.port(CAPACITY, demands.values(), backward)))

# ---- 5. The accounts: offered cells are sent, or answered by the close.

print("5. Closed")
for vpi in PLAN:
    cells = table.close(vpi, VCI).cells
    kinds = ", ".join(f"{kind.name.lower()} {count}" for kind, count in sent[vpi].items())
    assert sent[vpi][abr.Kind.DATA] + cells == 1_000
    print(f"   VPI {vpi}: {kinds}; {cells} cells waited")
print(f"   nothing is ready: {table.next_ready()}")
print(f"   the trace of VPI 1: {'passes' if abr.judge(trace) is None else abr.judge(trace)}")
