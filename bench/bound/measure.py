"""Times one node of a month beside the plain loop: the least of the user times of nine runs of 21 turns, less that of one turn, by 20."""
import resource
import subprocess
import sys


def least(command, runs=9):
    """The least user time of so many runs, in milliseconds."""
    took = []
    for _ in range(runs):
        before = resource.getrusage(resource.RUSAGE_CHILDREN).ru_utime
        subprocess.run(command, stdout=subprocess.DEVNULL, check=True)
        took.append(resource.getrusage(resource.RUSAGE_CHILDREN).ru_utime - before)
    return min(took) * 1000


def main():
    program, plain, intervals, levels, modes = sys.argv[1:]
    size = [intervals, levels, modes]
    node = (least([program, "21", "turns"]) - least([program, "once"])) / 20
    loop = (least([plain, *size, "42"]) - least([plain, *size, "2"])) / 20
    print("%s intervals, %s levels, %s modes: a node %.2f ms, the plain loop twice %.2f ms, %.2f times" % (intervals, levels, modes, node, loop, node / loop))


main()
