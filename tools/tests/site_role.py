"""Tries the role of share/ansible over ssh, in the network and mount namespaces in which this is started. Two machines
are two network namespaces, each with an sshd and an /etc/waltigon of its own. Their `systemctl` and `waltigon-live` are
made up, and `apctl` is the built program. It prints what came of each play, as JSON."""
import json
import os
import shutil
import subprocess
import sys
import time
from pathlib import Path

TOP = os.path.dirname(os.path.dirname(os.path.dirname(os.path.realpath(__file__))))
ROLE = os.path.join(TOP, "share", "ansible")
FOLDER = "/run/role"
MACHINES = {"ap1": "10.98.0.1", "ap2": "10.98.0.2"}
# What systemd would be told, and what it would answer; and an access point that serves once it was begun.
SYSTEMCTL = """#!/bin/sh
state=$(cat /etc/waltigon/.state 2>/dev/null)
case $1 in
show) printf 'LoadState=loaded\\nActiveState=%s\\n' "${state:-inactive}" ;;
is-enabled) [ -e /etc/waltigon/.enabled ] && echo enabled || { echo disabled; exit 1; } ;;
enable) touch /etc/waltigon/.enabled ;;
start | restart) echo active >/etc/waltigon/.state ;;
esac
case $1 in
start | restart | reload | enable) echo "$(date +%s%N) $1 $2" >>/etc/waltigon/.calls ;;
esac
"""
LIVE = """#!/bin/sh
[ ! -e /etc/waltigon/.broken ] && grep -q active /etc/waltigon/.state && echo '{"beacons": {"sent": 7}}' ||
    echo '{"beacons": {"sent": 0}}'
"""
SSHD = """ListenAddress {address}
HostKey {folder}/host
AuthorizedKeysFile {folder}/own.pub
PermitRootLogin yes
StrictModes no
UsePAM no
PidFile none
Subsystem sftp internal-sftp
SetEnv PATH={folder}/bin:/usr/sbin:/usr/bin:/sbin:/bin
"""
BEGIN = "mount --bind {folder}/{name} /etc/waltigon && exec /usr/sbin/sshd -D -e -f {folder}/{name}.sshd"


def run(*words, **more):
    """Runs a command, which has to go well."""
    subprocess.run(words, check=True, **more)


def write(path, text, mode=0o644):
    """Writes a file."""
    with open(path, "w", encoding="utf-8") as file:
        file.write(text)
    os.chmod(path, mode)


def set_up(program):
    """Makes the machines; gives their sshds."""
    run("mount", "-t", "tmpfs", "tmpfs", "/run")
    folders = ("bin", "changes", "work", *MACHINES)
    for folder in ("/run/sshd", *(os.path.join(FOLDER, name) for name in folders)):
        os.makedirs(folder)
    layers = f"lowerdir=/etc,upperdir={FOLDER}/changes,workdir={FOLDER}/work"
    run("mount", "-t", "overlay", "overlay", "-o", layers, "/etc")
    os.makedirs("/etc/waltigon", exist_ok=True)
    shutil.copytree(ROLE, os.path.join(FOLDER, "ansible"))
    os.symlink(program, os.path.join(FOLDER, "bin", "apctl"))
    write(os.path.join(FOLDER, "bin", "systemctl"), SYSTEMCTL, 0o755)
    write(os.path.join(FOLDER, "bin", "waltigon-live"), LIVE, 0o755)
    for name in ("own", "host"):
        run("ssh-keygen", "-q", "-t", "ed25519", "-N", "", "-f", os.path.join(FOLDER, name))
    run("ip", "link", "set", "lo", "up")
    run("ip", "link", "add", "wired", "type", "bridge")
    run("ip", "address", "add", "10.98.0.254/24", "dev", "wired")
    run("ip", "link", "set", "wired", "up")
    return [begin(name, address) for name, address in MACHINES.items()]


def begin(name, address):
    """Makes a machine; gives its sshd."""
    run("ip", "netns", "add", name)
    run("ip", "link", "add", f"to-{name}", "type", "veth", "peer", "name", "eth0", "netns", name)
    run("ip", "link", "set", f"to-{name}", "master", "wired", "up")
    run("ip", "-n", name, "address", "add", f"{address}/24", "dev", "eth0")
    for interface in ("lo", "eth0"):
        run("ip", "-n", name, "link", "set", interface, "up")
    write(os.path.join(FOLDER, f"{name}.sshd"), SSHD.format(address=address, folder=FOLDER))
    with open(os.path.join(FOLDER, f"{name}.log"), "wb") as log:
        return subprocess.Popen(["ip", "netns", "exec", name, "sh", "-c", BEGIN.format(folder=FOLDER, name=name)],
                                stdin=subprocess.DEVNULL, stdout=log, stderr=log)


def own(name, file=""):
    """A file of a machine's configuration."""
    return os.path.join(FOLDER, name, file)


def read(path):
    """What a file has, or nothing."""
    if not os.path.exists(path):
        return ""
    return Path(path).read_text(encoding="utf-8")


def play(changes=(), more=()):
    """Runs the playbook over the sample of a site, with changes to its text: what it said, and what machines have."""
    sample = read(os.path.join(ROLE, "my-site.yml"))
    for name in MACHINES:
        sample = sample.replace(f"    {name}.example:\n", f"    {name}:\n      ansible_host: {MACHINES[name]}\n")
    inventory = os.path.join(FOLDER, "inventory.yml")
    for old, new in changes:
        sample = sample.replace(old, new)
    write(inventory, sample)
    for name in MACHINES:
        if os.path.exists(own(name, ".calls")):
            os.remove(own(name, ".calls"))
    words = ["ansible-playbook", "-i", inventory, "--private-key", os.path.join(FOLDER, "own"), "-e",
             "ansible_python_interpreter=/usr/bin/python3", *more, os.path.join(FOLDER, "ansible", "site.yml")]
    surroundings = {**os.environ, "ANSIBLE_HOST_KEY_CHECKING": "False", "ANSIBLE_NOCOLOR": "1",
                    "ANSIBLE_SSH_ARGS": "-o ControlMaster=auto -o ControlPersist=60s -o UserKnownHostsFile=/dev/null",
                    "ANSIBLE_SSH_CONTROL_PATH_DIR": f"{FOLDER}/control", "ANSIBLE_PIPELINING": "True",
                    "ANSIBLE_LOCAL_TEMP": f"{FOLDER}/local"}
    done = subprocess.run(words, capture_output=True, text=True, check=False, env=surroundings)
    found = {"status": done.returncode, "said": done.stdout + done.stderr}
    for name in MACHINES:
        calls = [line.split(" ", 2) for line in read(own(name, ".calls")).splitlines()]
        found[name] = {"files": {file: read(own(name, f"phy0.{file}")) for file in ("toml", "wires", "environment")},
                       "calls": [call for _, *call in calls], "times": [int(moment) for moment, *_ in calls]}
    return found


def main():
    """Plays all."""
    machines = set_up(os.path.realpath(sys.argv[1]))
    time.sleep(2)
    try:
        renamed = ("ssid: guests", "ssid: visitors")
        found = {"first": play(), "again": play(), "renamed": play([renamed]),
                 "words": play([renamed, ("share: 2", "share: 3")]),
                 "fault": play(more=("-e", "waltigon_rates=zz")),
                 "twice": play([("02:00:00:00:02:01", "02:00:00:00:01:01")]),
                 "lacking": play([(', devices: "02:00:00:00:02:03"', "")])}
        write(own("ap1", ".broken"), "")
        found["broken"] = play(more=("-e", "waltigon_tries=2"))
        found["logs"] = [read(os.path.join(FOLDER, f"{name}.log")) for name in MACHINES]
    finally:
        for machine in machines:
            machine.terminate()
    print(json.dumps(found))


if __name__ == "__main__":
    main()
