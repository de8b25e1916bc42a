#!/usr/bin/env python3
"""What zstd and lz4 make of the pictures' words and of the engine's shortest files.

    compress.py FOLDER    with FOLDER/TEXTURE.words and FOLDER/TEXTURE.shortest, as host/bench/sizes.cpp writes them

Prints lines of three fields with tabs between: texture, command (`COMMAND of shortest` for the shortest file), bytes.
The commands run side by side; they are not timed.
"""
import os
import subprocess
import sys
from concurrent.futures import ThreadPoolExecutor

TEXTURES = ["sea", "harbour", "speckle"]
OF_WORDS = ["lz4 -1", "lz4 -9", "zstd -3", "zstd -19"]
OF_SHORTEST = ["zstd -19"]


def packed_length(command, path):
    """The number of bytes that a command puts out for a file."""
    process = subprocess.run([*command.split(), "--quiet", "--stdout", path], stdout=subprocess.PIPE, check=True)
    return len(process.stdout)


def jobs(folder):
    """Texture, name, command and path of each file to be packed."""
    for texture in TEXTURES:
        for command in OF_WORDS:
            yield texture, command, command, os.path.join(folder, texture + ".words")
        for command in OF_SHORTEST:
            yield texture, command + " of shortest", command, os.path.join(folder, texture + ".shortest")


def cost(job):
    """A rough order of the time a job takes: the high levels, then the long files."""
    return int(job[2].split("-")[1]), os.path.getsize(job[3])


def main():
    todo = list(jobs(sys.argv[1]))
    with ThreadPoolExecutor(os.cpu_count()) as pool:
        lengths = {job: pool.submit(packed_length, job[2], job[3]) for job in sorted(todo, key=cost, reverse=True)}
        for job in todo:
            print(job[0], job[1], lengths[job].result(), sep="\t")


if __name__ == "__main__":
    main()
