# Two orders are placed, one of them twice under one id, and the first is paid.
endpoint run --at 1700000000 < lines.jsonl
# An hour goes by.
endpoint run --at 1700000000 --horizon 3600 < /dev/null
