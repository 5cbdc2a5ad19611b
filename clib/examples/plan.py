"""Plans a page file and checks the certificate, in process:  plan.py PAGES [LIBRARY].  Prints what it told."""

import sys

from pocsag import Fault, Pocsag

pocsag = Pocsag(*sys.argv[2:])
with open(sys.argv[1], "rb") as file:
    pages = file.read()
try:
    plan = pocsag.plan(pages)
except Fault as fault:
    print(fault)
    sys.exit(1)
print(f"pages {plan.pages}\nbatches {plan.batches}")
print(f"transmission {len(plan.transmission)} bytes, certificate {len(plan.certificate)} bytes")
print(f"at least {pocsag.check(pages, plan.certificate).batches} batches")
