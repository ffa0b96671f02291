#!/usr/bin/env python3
"""recipes.py CI.md: prints for each recipe, on a line, the words of the step that hunts; and sees that the recipe runs
on each push and keeps the folder that this step writes, whatever its status."""
import re
import sys

import yaml


def github(recipe):
    # (a bare `on` is a truth value to readers of YAML 1.1)
    assert recipe.get("on", recipe.get(True)) == "push"
    (job,) = recipe["jobs"].values()
    assert isinstance(job["runs-on"], str)
    steps = job["steps"]
    assert all(("uses" in it) != ("run" in it) for it in steps)
    number, hunt = next((number, it) for number, it in enumerate(steps) if "hunt.sh" in it.get("run", ""))
    upload = next(it for it in steps[number + 1 :] if it.get("uses", "").startswith("actions/upload-artifact@"))
    assert upload["if"] == "always()"
    return hunt["run"], upload["with"]["path"]


def gitlab(recipe):
    (job,) = recipe.values()
    assert job["rules"] == [{"if": '$CI_PIPELINE_SOURCE == "push"'}] and isinstance(job["image"], str)
    assert all(isinstance(it, str) for it in job["before_script"])
    (hunt,) = job["script"]
    assert job["artifacts"]["when"] == "always"
    (kept,) = job["artifacts"]["paths"]
    return hunt, kept


def main(words):
    with open(words[0], encoding="utf-8") as file:
        recipes = re.findall(r"```yaml\n(.*?)```", file.read(), re.S)
    assert len(recipes) == 2
    for read, text in zip((github, gitlab), recipes):
        hunt, kept = read(yaml.safe_load(text))
        assert hunt.split()[2] == kept
        print(hunt)


if __name__ == "__main__":
    main(sys.argv[1:])
