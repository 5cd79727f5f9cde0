# Two refunds fail: one by the script's rule, after all its tries, and one whose body can't be read, at once.
endpoint run --at 1700000000 --horizon 60 < lines.jsonl
# The script is mended, and what failed goes back into the queue.
cp mended.script endpoint.script
endpoint retry --at 1700000100
# It is handled now.
endpoint run --at 1700000100 < /dev/null
