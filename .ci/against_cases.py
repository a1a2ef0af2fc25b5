"""Cases of tools/against before a stand-in of a server that does what the model does. (.ci/tools has cases in which each reply is given.)"""
import json
import os
import re
import subprocess

TOP = os.path.dirname(os.path.dirname(os.path.abspath(__file__)))
HEAD = ["job j1", "dest s3a://lake/out", "committer magic", "tasks 1"]
FILES = ["attempt 0.0", "file part-00000 text hello"]
EVENTS = ["do driver setup", "do 0.0 write", "do 0.0 commit", "do driver commit"]


def served(check, *words, least=5242880):
    """The status, the output and what was said on standard error, and what was left on the server."""
    left = f"{check.room}/left-on-server"
    variables = {**os.environ, "PYTHONPATH": f"{TOP}/.ci/stand-in", "PYTHONDONTWRITEBYTECODE": "1", "SERVER": "1", "LEAST": str(least), "LEFT": left}
    ran = subprocess.run([f"{check.room}/tools/against", "http://127.0.0.1:9", *words], capture_output=True, timeout=300, env=variables)
    if not os.path.exists(left):
        return ran.returncode, ran.stdout.decode(), ran.stderr.decode(), "there was no server"
    with open(left, encoding="utf-8") as it:
        found = json.load(it)
    os.remove(left)
    return ran.returncode, ran.stdout.decode(), ran.stderr.decode(), found


def agrees(check, what, ran, end):
    """Sees that a run ends without a difference, says this at its end, and leaves nothing on the server."""
    status, said, error, left = ran
    check.see(f"against, {what}", status == 0 and not error and f"\n{end}" in f"\n{said}", f"{said[-600:]}{error}")
    check.same(f"against, what is left of {what}", left, {})


def cases(check):
    """The directed cases, of which docs/AGREEMENT.md has the numbers, and random jobs, no two of them alike."""
    agrees(check, "the directed cases", served(check, "--cases", "--minimum", "4", least=4),
           "65 runs, 0 with differences; 2824 requests sent, 2824 replies compared, ")
    ends = [served(check, "--random", str(it), "--minimum", "4", least=4) for it in (1, 2, 20)]
    for count, ran in zip((1, 2, 20), ends):
        agrees(check, f"{count} random jobs", ran, f"{count} runs, 0 with differences; ")
    sent = [int(it) for ran in ends for it in re.findall(r"; (\d+) requests sent", ran[1])]
    check.see("against, jobs that differ", len(sent) == 3 and sent[1] != 2 * sent[0], f"{sent} requests were sent")
    status, said, _, _ = served(check, "--cases", "a part that is too small", least=5)
    due = "a part that is too small: request 4 CompleteMultipartUpload: the model says EntityTooSmall, the server success\n"
    check.see("against, another least size", status == 1 and said.startswith(due), said)


def over(check):
    """Commands over a store with an old file, and with the upload and the three hidden objects of a job whose commit never came."""
    folder = check.store("against", "keep")
    script = "\n".join([*HEAD, *FILES, *EVENTS[:3], ""]).encode()
    subprocess.run([check.program, folder, "job"], input=script, stdout=subprocess.DEVNULL)
    before = "1 runs, 0 with differences; "
    agrees(check, "a list of uploads", served(check, "--words", "uploads s3a://lake/out", "--over", folder),
           f"{before}2 requests sent, 2 replies compared, 5 objects and uploads compared at the end")
    agrees(check, "an abort of uploads", served(check, "--words", "abort-uploads s3a://lake/out", "--over", folder),
           f"{before}2 requests sent, 2 replies compared, 4 objects and uploads compared at the end")
    agrees(check, "a rename", served(check, "--words", "mv s3a://lake/out/keep s3a://lake/out/kept", "--over", folder), before)
    folder = check.store("against-stuck", "stuck")
    status, said, _, _ = served(check, "--words", "rmr s3a://lake/out", "--over", folder)
    due = "the model says success, the server AccessDenied\n"
    check.see("against, a key that a batch does not delete", status == 1 and f"DeleteObjects: {due}" in said, said)


def against_more(check):
    for look in (cases, over):
        look(check)
