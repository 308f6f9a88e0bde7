#!/usr/bin/env python3
"""Tests docs/kubernetes.yaml and docs/compose.yaml: their parts fit together and the image of package/image, and a registry with their
words serves their probes and the user, and ends within their time. No cluster runs here."""
import os, re, signal, tempfile, time

import yaml

from limits import CHEAP, basic, users
from playing import play, until
from server import serving

DOCS = os.path.join(os.path.dirname(os.path.abspath(__file__)), "../../docs")
IMAGE = os.path.join(DOCS, "../package/image")

# The time that open requests, the database and the store have at an end, in seconds.
END = 30


def documents(name):
    with open(f"{DOCS}/{name}") as file:
        return list(yaml.safe_load_all(file))


def image(pattern):
    """Returns what the source of the image has at a place."""
    with open(IMAGE) as file:
        return re.search(pattern, file.read()).group(1)


def option(words, name):
    return next(word.split("=", 1)[1] for word in words if word.startswith(f"--{name}="))


def kubernetes():
    """Returns the Service, the budget and the set of docs/kubernetes.yaml."""
    by_kind = {document["kind"]: document for document in documents("kubernetes.yaml")}
    assert set(by_kind) == {"Service", "PodDisruptionBudget", "StatefulSet"}, by_kind.keys()
    return by_kind["Service"], by_kind["PodDisruptionBudget"], by_kind["StatefulSet"]


def the_objects_fit_together():
    service, budget, pods = kubernetes()
    labels = pods["spec"]["template"]["metadata"]["labels"]
    assert service["spec"]["selector"] == labels == pods["spec"]["selector"]["matchLabels"] == budget["spec"]["selector"]["matchLabels"]
    assert pods["spec"]["serviceName"] == service["metadata"]["name"] and pods["spec"]["replicas"] == 1
    assert budget["spec"]["maxUnavailable"] == 1 and "minAvailable" not in budget["spec"]
    spec = pods["spec"]["template"]["spec"]
    [container] = spec["containers"]
    [port] = container["ports"]
    assert [entry["targetPort"] for entry in service["spec"]["ports"]] == [port["name"]]
    claims = [claim["metadata"]["name"] for claim in pods["spec"]["volumeClaimTemplates"]]
    assert claims == ["data"] and pods["spec"]["volumeClaimTemplates"][0]["spec"]["accessModes"] == ["ReadWriteOnce"]
    mounts = {mount["name"]: mount["mountPath"] for mount in container["volumeMounts"]}
    assert set(mounts) == {*claims, *(volume["name"] for volume in spec["volumes"])}, mounts
    assert option(container["args"], "htpasswd") == f"{mounts['users']}/users"
    for name in ("startupProbe", "livenessProbe", "readinessProbe"):
        assert container[name]["httpGet"]["port"] == port["name"], name


def they_fit_the_image():
    number, data, listens = image(r"NUMBER = .*?(\d+)"), "/" + image(r'DATA = "(\w+)"'), image(r'"0\.0\.0\.0:(\d+)"')
    _, _, pods = kubernetes()
    spec = pods["spec"]["template"]["spec"]
    [container] = spec["containers"]
    context = spec["securityContext"]
    assert [context[key] for key in ("runAsUser", "runAsGroup", "fsGroup")] == [int(number)] * 3
    assert data in (mount["mountPath"] for mount in container["volumeMounts"]) and container["ports"][0]["containerPort"] == int(listens)
    [registry] = documents("compose.yaml")[0]["services"].values()
    assert [word.split(":")[-1] for word in registry["ports"]] == [listens] and registry["volumes"][0] == f"data:{data}"
    assert "data" in documents("compose.yaml")[0]["volumes"]
    assert registry["volumes"][1].split(":")[1] == option(registry["command"], "htpasswd")


def ends_within(words, seconds, probes):
    """Starts a registry with these words, and checks its probes, its user, and its end."""
    drain = int(option(words, "drain-s"))
    assert seconds >= drain + END, (seconds, drain)
    with users(f"acme:{CHEAP}") as file, tempfile.TemporaryDirectory() as folder:
        # The test reads the log as text.
        given = [f"--htpasswd={file}" if word.startswith("--htpasswd=") else word for word in words if word != "--log-format=json"]
        options, tenants = [word for word in given if word.startswith("--")], [word for word in given if not word.startswith("--")]
        with serving("--data", f"{folder}/data", *options, tenants=tenants) as server:
            client = server.client()
            assert {client.ask("GET", path).status for path in probes} == {200}
            assert client.ask("GET", "/v2/").status == 401
            assert client.ask("GET", "/v2/", None, basic("acme:secret")).status == 200
            begun = time.time()
            server.process.send_signal(signal.SIGTERM)
            assert until(lambda: server.client().ask("GET", "/readyz").status == 503, drain)
            assert server.client().ask("GET", "/livez").status == 200
            assert server.process.wait(seconds) == 0 and drain - 1 < time.time() - begun < seconds


def a_pod_serves_its_probes():
    _, _, pods = kubernetes()
    spec = pods["spec"]["template"]["spec"]
    [container] = spec["containers"]
    probes = {container[name]["httpGet"]["path"] for name in ("startupProbe", "livenessProbe", "readinessProbe")}
    assert probes == {"/livez", "/readyz"}
    ends_within(container["args"], spec["terminationGracePeriodSeconds"], probes)


def a_service_of_compose_serves():
    [registry] = documents("compose.yaml")[0]["services"].values()
    ends_within(registry["command"], int(registry["stop_grace_period"].rstrip("s")), {"/livez"})


def main():
    play("deployments", [the_objects_fit_together, they_fit_the_image, a_pod_serves_its_probes, a_service_of_compose_serves])


if __name__ == "__main__":
    main()
