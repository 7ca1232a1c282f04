#!/usr/bin/env python3
"""The manifests of examples/kubernetes: each field is one of its kind, each name that one part gives another is there,
and macaroond's words are those that it takes. They are run by nobody: this machine has no Kubernetes."""
import pathlib
import sys

sys.path.insert(0, str(pathlib.Path(__file__).resolve().parents[1]))
from check.man_page import options
from common import TOP

FOLDER = TOP / "examples" / "kubernetes"
# The fields that the reference of Kubernetes 1.30 has of each part that is used here: a type of Python, a list of one
# form, a record by its names, or `ANY` name with one form behind it. A name that isn't here is a fault, or a new line here.
ANY = "*"
META = {"name": str, "labels": {ANY: str}}
CONTAINER = {
    "name": str, "image": str, "command": [str], "args": [str],
    "securityContext": {
        "runAsUser": int, "runAsGroup": int, "allowPrivilegeEscalation": bool, "readOnlyRootFilesystem": bool,
        "capabilities": {"drop": [str]},
    },
    "resources": {"requests": {ANY: str}, "limits": {ANY: str}},
    "startupProbe": {"exec": {"command": [str]}, "periodSeconds": int, "failureThreshold": int},
    "volumeMounts": [{"name": str, "mountPath": str, "readOnly": bool}],
}
VOLUME = {
    "name": str,
    "emptyDir": {"medium": str, "sizeLimit": str},
    "secret": {"secretName": str, "defaultMode": int},
    "configMap": {"name": str, "defaultMode": int},
}
POD = {
    "automountServiceAccountToken": bool, "terminationGracePeriodSeconds": int,
    "securityContext": {"runAsNonRoot": bool, "fsGroup": int, "seccompProfile": {"type": str}},
    "volumes": [VOLUME], "containers": [CONTAINER],
}
KINDS = {
    ("v1", "Secret"): {"metadata": META, "type": str, "stringData": {ANY: str}},
    ("v1", "ConfigMap"): {"metadata": META, "data": {ANY: str}},
    ("apps/v1", "Deployment"): {
        "metadata": META,
        "spec": {"replicas": int, "selector": {"matchLabels": {ANY: str}}, "template": {"metadata": META, "spec": POD}},
    },
}


def misfits(value, form, where):
    """What in a part isn't of its form."""
    if isinstance(form, type):
        if type(value) is not form:
            yield f"{where}: {value!r} is no {form.__name__}"
    elif isinstance(form, list):
        if not isinstance(value, list):
            yield f"{where} is no list"
        for number, it in enumerate(value if isinstance(value, list) else []):
            yield from misfits(it, form[0], f"{where}[{number}]")
    elif not isinstance(value, dict):
        yield f"{where} has no fields"
    else:
        for name, it in value.items():
            inner = form.get(name, form.get(ANY))
            yield from [f"{where}.{name}: there is no such field"] if inner is None else misfits(it, inner, f"{where}.{name}")


def whole(parts):
    """What is wrong with the parts of a manifest, each by its kind."""
    for part in parts:
        kind = part.get("apiVersion"), part.get("kind")
        if kind not in KINDS:
            yield f"there is no kind {kind}"
            continue
        yield from misfits({name: it for name, it in part.items() if name not in ("apiVersion", "kind")}, KINDS[kind], kind[1])


def given(parts):
    """What a pod may mount: the names of each Secret and ConfigMap, with the files in it."""
    return {(it["kind"], it["metadata"]["name"]): {*it.get("stringData", {}), *it.get("data", {})} for it in parts}


def files_of(volume, held):
    """The files that a volume has, or None where nothing says which."""
    if "secret" in volume:
        return held.get(("Secret", volume["secret"]["secretName"]), "missing")
    if "configMap" in volume:
        return held.get(("ConfigMap", volume["configMap"]["name"]), "missing")
    return None


def joined(parts):
    """What a deployment names that isn't there, and options of macaroond that it doesn't take."""
    held = given(parts)
    for part in (it for it in parts if it["kind"] == "Deployment"):
        pod = part["spec"]["template"]["spec"]
        volumes = {it["name"]: files_of(it, held) for it in pod["volumes"]}
        if part["spec"]["selector"]["matchLabels"] != part["spec"]["template"]["metadata"]["labels"]:
            yield "the selector finds no pod of the template"
        yield from (f"the volume {name} is of nothing that is there" for name, files in volumes.items() if files == "missing")
        for container in pod["containers"]:
            mounts = {it["mountPath"]: it["name"] for it in container["volumeMounts"]}
            yield from (f"{container['name']} mounts {name}, which is no volume" for name in mounts.values() if name not in volumes)
            yield from misled(container, {path: volumes.get(name) for path, name in mounts.items()})


def misled(container, mounts):
    """Options that macaroond doesn't take, and paths in them at which nothing is mounted."""
    known = options()
    for word in container.get("args", []):
        option, _, value = word.partition("=")
        if option not in known:
            yield f"macaroond takes no {option}"
        path = value.removeprefix("unix:")
        folder, _, name = path.rpartition("/")
        if folder and (folder not in mounts or (mounts[folder] is not None and name not in mounts[folder])):
            yield f"{word}: nothing is mounted there"


def faults():
    """What is wrong with the manifests, how many parts they have, and what was left out."""
    try:
        import yaml
    except ImportError:
        return [], 0, ["python3-yaml isn't installed (scripts/install_peers.sh)"]
    found, count = [], 0
    for path in sorted(FOLDER.glob("*.yaml")):
        parts = list(yaml.safe_load_all(path.read_text()))
        wrong = list(whole(parts))
        found += [f"{path.name}: {it}" for it in wrong or joined(parts)]
        count += len(parts)
    return found, count, []


if __name__ == "__main__":
    told, count, skipped = faults()
    print(*told, *skipped, sep="\n")
    print(f"kubernetes: {len(told)} faults in {count} parts")
    sys.exit(bool(told))
