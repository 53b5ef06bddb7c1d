"""Runs every command of docs/TEACHING.md and looks for the lines quoted under it, in their order.

usage: teaching.py TEACHING.md REPOSITORY FOLDER, with `tray` in the PATH; files are written to FOLDER.
"""
import os
import re
import shutil
import subprocess
import sys

document, repository, folder = (os.path.realpath(argument) for argument in sys.argv[1:])
os.makedirs(folder, exist_ok=True)
# a copy: `rt ci` takes no link in the checkout
shutil.copytree(os.path.join(repository, "examples"), os.path.join(folder, "examples"), dirs_exist_ok=True)

blocks = re.findall(r"^```(sh|text)\n(.*?)^```$", open(document, encoding="utf-8").read(), re.M | re.S)
output, commands, lines = None, 0, 0
for kind, body in blocks:
    if kind == "sh":
        for command in body.splitlines():
            done = subprocess.run(command.split(), cwd=folder, stdin=subprocess.DEVNULL, capture_output=True, text=True)
            if done.returncode != 0:
                sys.exit(f"`{command}` ended with {done.returncode}: {done.stderr}")
            output, commands = done.stdout.splitlines(), commands + 1
        continue
    at = 0
    for line in body.splitlines():
        try:
            at = output.index(line, at) + 1
        except ValueError:
            sys.exit(f"`{command}` does not give, in this place: {line}")
        lines += 1
if commands < 10 or lines < 30:
    sys.exit(f"only {commands} commands and {lines} lines were found")
