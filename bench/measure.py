"""What the benches share: the program under test, the machine that they print, and the time and the memory of a run."""
import os
import platform
import resource
import shutil
import subprocess
import sys
import threading
import time

TOP = os.path.dirname(os.path.dirname(os.path.abspath(__file__)))


def program_of(arguments, name="bay_tool"):
    """The program that is named, or the one of this name in bin/, which scripts/build makes where it isn't there."""
    program = os.path.abspath(arguments[1] if len(arguments) > 1 else os.path.join(TOP, "bin", name))
    if not os.path.exists(program):
        if len(arguments) > 1:
            print(f"bench: no program {program}", file=sys.stderr)
            sys.exit(2)
        subprocess.run([os.path.join(TOP, "scripts", "build")], check=True)
    return program


def version_of(command):
    """The first line that a command prints about its version."""
    if not shutil.which(command[0]):
        return "none"
    return subprocess.run(command, stdout=subprocess.PIPE, text=True).stdout.split("\n")[0]


def print_machine(*compilers):
    """Prints the processor, how many there are, the kernel, how busy they are, and the version of rt and of other compilers."""
    name = platform.machine()
    with open("/proc/cpuinfo") as f:
        names = [line.split(":", 1)[1].strip() for line in f if line.startswith("model name")]
    print(f"machine: {names[0] if names else name}, {os.cpu_count()} processors, {platform.system()} {platform.release()}")
    print("load: " + " ".join(f"{it:.2f}" for it in os.getloadavg()))
    print(f"compiler: {version_of(['rt', 'version'])}")
    for compiler in compilers:
        print(f"compiler: {version_of([compiler, '--version'])}")
    sys.stdout.flush()


def least_seconds(program, path, times, word="replay"):
    """The least of the seconds of several runs of the program, with this word, on the text at this path; the answers go to /dev/null."""
    least = None
    for _ in range(times):
        with open(path, "rb") as source:
            start = time.perf_counter()
            status = subprocess.run([program, word], stdin=source, stdout=subprocess.DEVNULL).returncode
            took = time.perf_counter() - start
        if status != 0:
            sys.exit(f"bench: status {status} on {path}")
        least = took if least is None else min(least, took)
    return least


def replay_seconds(program, path):
    """The user and the system seconds of the processor for one replay of the record at this path; the answers go to /dev/null."""
    with open(path, "rb") as source:
        run = subprocess.Popen([program, "replay"], stdin=source, stdout=subprocess.DEVNULL)
        _, status, usage = os.wait4(run.pid, 0)
        run.returncode = os.waitstatus_to_exitcode(status)
    if run.returncode != 0:
        sys.exit(f"bench: status {run.returncode} on {path}")
    return usage.ru_utime, usage.ru_stime


def least_in_turns(programs, path, times):
    """The least processor seconds, user and system, of so many replays of the record at this path by each of the programs, which
    run in turns; the answers go to /dev/null."""
    least = {}
    for _ in range(times):
        for program in programs:
            seconds = sum(replay_seconds(program, path))
            least[program] = min(seconds, least.get(program, seconds))
    return least


def instructions(program, path, word="replay"):
    """How many instructions the program takes with this word on the text at this path, as valgrind counts them; None where it counts
    none."""
    if not shutil.which("valgrind"):
        return None
    command = ["valgrind", "--tool=callgrind", "--callgrind-out-file=/dev/null", program, word]
    with open(path, "rb") as source:
        run = subprocess.run(command, stdin=source, stdout=subprocess.DEVNULL, stderr=subprocess.PIPE, text=True, errors="replace")
    counts = [line.split(":")[1] for line in run.stderr.splitlines() if "Collected :" in line]
    return int(counts[0]) if run.returncode == 0 and counts else None


def need_rt():
    """Status 2 where there is no rt."""
    if not shutil.which("rt"):
        print("bench: there is no rt", file=sys.stderr)
        sys.exit(2)


def crates_below(*names):
    """These crates and those that they stand on, each with what its line in crates.txt names."""
    lines = {}
    with open(os.path.join(TOP, "crates.txt")) as f:
        for line in f:
            if ":" in line and not line.startswith("#"):
                crate, below = line.split(":")
                lines[crate.strip()] = below.split()
    found, wanted = {}, list(names)
    while wanted:
        crate = wanted.pop()
        if crate not in found:
            found[crate] = lines[crate]
            wanted += [below for below in lines[crate] if below in lines]
    return found


def copy_crates(folder, program, *names):
    """Copies these crates and those that they stand on into the folder, with the libraries that are proved already, and makes
    room there for a program that stands on them; gives the program's folder."""
    crates = crates_below(*names)
    for crate in crates:
        for part in ("src", "specs", "proofs", os.path.join("out", "rlib")):
            source = os.path.join(TOP, "crates", crate, part)
            if os.path.isdir(source):
                shutil.copytree(source, os.path.join(folder, "crates", crate, part))
    crates[program] = list(crates)
    with open(os.path.join(folder, "crates.txt"), "w") as f:
        f.writelines(f"{crate}: {' '.join(below)}\n" for crate, below in crates.items())
    shutil.copy(os.path.join(TOP, "HANDLES"), folder)
    made = os.path.join(folder, "crates", program)
    os.makedirs(os.path.join(made, "src"))
    return made


def proved(folder, *words):
    """The program, proved and built in its folder by a run with these words; where it isn't, what was said, and status 2."""
    program = os.path.basename(folder)
    print(f"bench: proving {program} and the crates that it stands on", file=sys.stderr)
    run = subprocess.run(["rt", "run", "--", *words], cwd=folder, input=b"", stdout=subprocess.PIPE, stderr=subprocess.PIPE)
    if run.returncode != 0:
        print(f"bench: no {program}:\n" + run.stderr.decode(errors="replace"), file=sys.stderr)
        sys.exit(2)
    return os.path.join(folder, "out", program)


def built_by_rustc(folder, name):
    """The program of bench/NAME.rs, in plain Rust, built in this folder; None where there is no rustc."""
    if not shutil.which("rustc"):
        return None
    program = os.path.join(folder, name)
    if subprocess.run(["rustc", "--edition", "2021", "-O", "-o", program, os.path.join(TOP, "bench", name + ".rs")]).returncode != 0:
        print(f"bench: rustc refuses {name}.rs", file=sys.stderr)
        sys.exit(2)
    return program


def processor_seconds(command, octets, wanted):
    """The processor seconds of a run on these octets, which has to print what is wanted."""
    before = resource.getrusage(resource.RUSAGE_CHILDREN)
    run = subprocess.run(command, input=octets, stdout=subprocess.PIPE)
    after = resource.getrusage(resource.RUSAGE_CHILDREN)
    if run.returncode != 0 or run.stdout != wanted:
        sys.exit(f"bench: {os.path.basename(command[0])}: status {run.returncode}, answer {run.stdout}, and not {wanted}")
    return after.ru_utime + after.ru_stime - before.ru_utime - before.ru_stime


def peak(program, text, answers):
    """The peak of memory in kB of a replay of this record, as the kernel says when all answers but the last line's are there."""
    return kilobytes_of(program, text, answers, "status", "VmHWM")


def anonymous(program, text, answers):
    """The kB that the replay itself has written then, without pages of files: exact, where the peak may be some hundred off."""
    return kilobytes_of(program, text, answers, "smaps_rollup", "Anonymous")


def kilobytes_of(program, text, answers, file, name):
    """What a line of a file of /proc says of a replay of this record, when all answers but the last line's are there; the answers
    have to be these. The last line is held back until then."""
    run = subprocess.Popen([program, "replay"], stdin=subprocess.PIPE, stdout=subprocess.PIPE)
    last = len("end\n")

    def feed():
        run.stdin.write(text[:-last])
        run.stdin.flush()

    feeder = threading.Thread(target=feed)
    feeder.start()
    got = run.stdout.read(len(answers) - last)
    feeder.join()
    with open(f"/proc/{run.pid}/{file}") as f:
        kilobytes = next(int(line.split()[1]) for line in f if line.startswith(f"{name}:"))
    got += run.communicate(text[-last:])[0]
    if got != answers or run.returncode != 0:
        sys.exit("bench: the answers are not those of the model")
    return kilobytes
