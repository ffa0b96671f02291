#!/usr/bin/env python3
"""job.py MANIFEST FOLDER: reads the manifest of a Kubernetes Job, and runs its container for each index in FOLDER, as
the cluster does: each time with the container's own command, arguments and environment, and with the index. Variables
of this environment go before those of the manifest."""
import os
import re
import subprocess
import sys

import yaml

# The fields that the manifest may have, each with the type of its value, as the interface of Kubernetes names them.
CONTAINER = {
    "name": str,
    "image": str,
    "workingDir": str,
    "command": [str],
    "args": [str],
    "env": [{"name": str, "value": str}],
    "resources": {"requests": {"cpu": str, "memory": str}, "limits": {"cpu": str, "memory": str}},
    "volumeMounts": [{"name": str, "mountPath": str}],
}
POD = {"restartPolicy": str, "containers": [CONTAINER], "volumes": [{"name": str, "persistentVolumeClaim": {"claimName": str}}]}
JOB = {
    "apiVersion": str,
    "kind": str,
    "metadata": {"name": str},
    "spec": {"completionMode": str, "completions": int, "parallelism": int, "backoffLimit": int, "template": {"spec": POD}},
}


def typed(value, of, at):
    """Sees that a value has all the fields that are wanted, and no others, each of its type."""
    if isinstance(of, list):
        assert isinstance(value, list) and value, f"{at} is a list"
        for number, it in enumerate(value):
            typed(it, of[0], f"{at}[{number}]")
    elif isinstance(of, dict):
        assert isinstance(value, dict) and value.keys() == of.keys(), f"{at} has the fields {sorted(of)}"
        for name, it in of.items():
            typed(value[name], it, f"{at}.{name}")
    else:
        assert type(value) is of, f"{at} is a {of.__name__}, and no {value!r}"


def sound(job):
    spec, pod = job["spec"], job["spec"]["template"]["spec"]
    assert (job["apiVersion"], job["kind"], spec["completionMode"]) == ("batch/v1", "Job", "Indexed")
    assert re.fullmatch(r"[a-z0-9]([-a-z0-9]{0,61}[a-z0-9])?", job["metadata"]["name"])
    assert 1 <= spec["parallelism"] <= spec["completions"] and spec["backoffLimit"] >= 0
    assert pod["restartPolicy"] in ("Never", "OnFailure")
    volumes = {it["name"] for it in pod["volumes"]}
    for container in pod["containers"]:
        assert {it["name"] for it in container["volumeMounts"]} <= volumes
        assert int(next(it["value"] for it in container["env"] if it["name"] == "SHARDS")) == spec["completions"]


def run(job, folder):
    """Runs the container for each index, and returns whether each ended with status 0."""
    container = job["spec"]["template"]["spec"]["containers"][0]
    own = {it["name"]: it["value"] for it in container["env"]}
    statuses = []
    for index in range(job["spec"]["completions"]):
        env = {**own, **os.environ, "JOB_COMPLETION_INDEX": str(index)}
        statuses.append(subprocess.run([*container["command"], *container["args"]], cwd=folder, env=env).returncode)
    return not any(statuses)


def main(words):
    with open(words[0], encoding="utf-8") as file:
        job = yaml.safe_load(file)
    typed(job, JOB, "job")
    sound(job)
    return 0 if run(job, words[1]) else 1


if __name__ == "__main__":
    sys.exit(main(sys.argv[1:]))
