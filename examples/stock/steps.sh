# The reservation comes before the delivery, fails, and is tried again ten seconds later.
endpoint run --at 1700000000 --horizon 10 < lines.jsonl
# A week later the records are no longer needed.
endpoint purge --at 1700604810
