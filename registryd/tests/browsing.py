#!/usr/bin/env python3
"""Tests the pages of `--browse`: what they show to whom, logins, deletes and their question, forms of other sites, scripts in texts of
clients, headers, and in Chromium the keyboard, light and dark, widths, contrasts and names. With `--pictures FOLDER`, such as `docs`, it writes the
pictures of the documents instead, and with `--measure` it prints how long pages of large repositories take."""
import concurrent.futures, contextlib, html, json, os, re, statistics, sys, time, urllib.parse

from audits import audited, lines
from browser import CONTRASTS, TOO_WIDE, browsing
from limits import CHEAP, basic, users
from playing import play, until
from receivers import Receiver, receivers_file
from referrers import descriptor, index
from restarts import push, push_manifest, pushed
from robots import add, robot, serving_robots
from server import INDEX, MANIFEST, manifest_of, serving, sha256

FORM = "application/x-www-form-urlencoded"
SPDX, SIGNED, CONFIG, LAYER = ("application/spdx+json", "application/vnd.dev.cosign.artifact.sig.v1+json", "application/vnd.oci.image.config.v1+json",
                               "application/vnd.oci.image.layer.v1.tar+gzip")
RIGHTS = ("acme read,write,delete acme", "reader read acme/web", "* read acme/public")
PEOPLE = (f"acme:{CHEAP}", f"reader:{CHEAP}", f"other:{CHEAP}")

# A text that would show that it ran, as markup, in an attribute, or as an end of what it is in.
HOSTILE = """</pre></code></title>"'><script>window.ran = 1</script><img src=x onerror="window.ran = 2">&lt;b onclick=alert(1)>"""

# The sizes of the windows in which pages are looked at.
WINDOWS = ((360, 740), (1280, 900))


class Visitor:
    """Somebody with a browser without scripts: it keeps the cookie, and sends forms as a browser does."""

    def __init__(self, server, headers=()):
        self.client, self.cookie, self.headers = server.client(), None, dict(headers)
        self.origin = f"http://{server.address}"

    def ask(self, method, path, body=None, headers=()):
        cookie = {"Cookie": self.cookie} if self.cookie else {}
        answer = self.client.ask(method, path, body, {**self.headers, **cookie, **dict(headers)})
        if answer["Set-Cookie"]:
            pair = answer["Set-Cookie"].split(";")[0]
            self.cookie = None if pair.endswith("=") else pair
        return answer

    def get(self, path, status=200):
        """Returns the text of a page."""
        answer = self.ask("GET", path)
        assert answer.status == status, (path, answer.status, answer.body[-600:])
        return answer.body.decode()

    def send(self, path, fields, headers=()):
        return self.ask("POST", path, urllib.parse.urlencode(fields), {"Content-Type": FORM, "Origin": self.origin, **dict(headers)})

    def log_in(self, user, password="secret", to="/ui/"):
        answer = self.send("/ui/login", {"user": user, "password": password, "to": to})
        assert (answer.status, answer["Location"]) == (303, to), (answer.status, answer.body)
        return answer

    def token(self, path):
        """Returns the text that the form of a page sends back."""
        return re.findall('name="token" value="([0-9a-f]{64})"', self.get(path))[-1]


def links(text):
    return [html.unescape(link) for link in re.findall('href="([^"]*)"', text)]


def words(text):
    """Returns the texts of a page without its markup."""
    return " ".join(html.unescape(re.sub("<[^>]*>", " ", text)).split())


def image_of(client, repo, config, layers, kind=LAYER, **more):
    """Pushes what an image has, and returns its manifest, which is not pushed."""
    config = json.dumps(config).encode()
    for data in (config, *layers):
        push(client, repo, data)
    entries = [{"mediaType": kind, "digest": sha256(data), "size": len(data)} for data in layers]
    return json.dumps({"schemaVersion": 2, "mediaType": MANIFEST, "config": descriptor(config, CONFIG), "layers": entries, **more}).encode()


def referrer(client, repo, subject, kind, text, annotations=(), content_kind=None):
    """Pushes an artifact with a text whose subject is a manifest, and returns its manifest."""
    for data in (b"{}", text):
        push(client, repo, data)
    entry = {"mediaType": content_kind or kind, "digest": sha256(text), "size": len(text)}
    empty = {"mediaType": "application/vnd.oci.empty.v1+json", "digest": sha256(b"{}"), "size": 2}
    content = json.dumps({"schemaVersion": 2, "mediaType": MANIFEST, "artifactType": kind, "config": empty, "layers": [entry],
                          "subject": descriptor(subject), "annotations": dict(annotations)}).encode()
    push_manifest(client, repo, sha256(content), content)
    return content


def config_of(architecture, *steps):
    return {"created": "2026-05-04T10:20:30Z", "os": "linux", "architecture": architecture,
            "config": {"Entrypoint": ["/usr/bin/web"], "Cmd": ["--listen", ":8080"], "User": "web", "WorkingDir": "/srv", "ExposedPorts": {"8080/tcp": {}},
                       "Labels": {"org.opencontainers.image.licenses": "Apache-2.0"}},
            "history": [{"created_by": step} for step in steps] + [{"created_by": "ENV A=b", "empty_layer": True}]}


def fill(client):
    """Pushes what the pages show: an index of two platforms with a signature and an SBOM, and images that share a layer. Returns the
    index, its first image and the SBOM."""
    base, program = b"base" * 700_000, [b"web for %s" % name * 60_000 for name in (b"amd64", b"arm64")]
    images = [image_of(client, "acme/web", config_of(name, "ADD base.tar /", "COPY web /usr/bin/web"), [base, data])
              for name, data in zip(("amd64", "arm64"), program)]
    for image in images:
        push_manifest(client, "acme/web", sha256(image), image)
    platforms = [{**descriptor(image), "platform": {"os": "linux", "architecture": name}} for image, name in zip(images, ("amd64", "arm64"))]
    both = index(*platforms, annotations={"org.opencontainers.image.source": "https://git.example/acme/web"})
    for tag in ("latest", "v1.4.0"):
        push_manifest(client, "acme/web", tag, both, INDEX)
    older = image_of(client, "acme/web", config_of("amd64", "ADD base.tar /", "COPY web /usr/bin/web"), [base, b"older" * 9000])
    push_manifest(client, "acme/web", "v1.3.2", older)
    sbom = json.dumps({"spdxVersion": "SPDX-2.3", "name": "acme/web", "packages": [{"name": "libc6", "versionInfo": "2.36"}]}, indent=2).encode()
    found = referrer(client, "acme/web", both, SPDX, sbom, {"org.opencontainers.image.created": "2026-05-04T10:21:00Z"})
    referrer(client, "acme/web", both, SIGNED, b'{"critical":{"type":"cosign container image signature"}}', {"dev.sigstore.cosign/signature": "MEUCIQ=="},
             "application/vnd.dev.cosign.simplesigning.v1+json")
    for repo in ("acme/public/base", "acme/worker"):
        push_manifest(client, repo, "v1", image_of(client, repo, config_of("amd64", "ADD base.tar /"), [base]))
    return both, images[0], found


@contextlib.contextmanager
def a_registry(*more, rights=RIGHTS, people=PEOPLE):
    """A registry with users. Returns it, and a client of the user who may do everything in the tenant acme."""
    with users(*people) as file, users(*rights) as lines_of_rights:
        with serving("--browse", "--htpasswd", file, "--rights", lines_of_rights, *more, tenants=("acme=1000000000,65536", "other=1000000000,65536")) as server:
            yield server, server.client(basic("acme:secret"))


def pages_are_served_if_asked_for():
    with serving() as server:
        for path in ("/ui", "/ui/", "/ui/style.css", "/ui/login"):
            answer = server.client().ask("GET", path)
            assert answer.status == 404 and answer.code() == "NAME_UNKNOWN", path
    with serving("--browse") as server:
        visitor = Visitor(server)
        answer = visitor.ask("GET", "/ui")
        assert (answer.status, answer["Location"]) == (303, "/ui/")
        text = words(visitor.get("/ui/"))
        assert text.endswith("acme In use 0 B of 1.0 GB other In use 0 B of 1.0 GB poor In use 0 B of 1.0 MB"), text
        # There are no users: nobody logs in.
        assert "Log in" not in visitor.get("/ui/") and visitor.ask("GET", "/ui/login").status == 404
        assert visitor.send("/ui/login", {"user": "a", "password": "b"}).status == 404
        image = sha256(pushed(server.client(), "acme/web", "v1"))
        path = "/ui/delete/acme/web:v1"
        assert visitor.send(path, {"token": "0" * 64}).status == 403
        assert visitor.send(path, {"token": visitor.token(path)}).status == 200
        assert visitor.ask("GET", "/ui/images/acme/web:v1").status == 404 and visitor.ask("GET", f"/ui/images/acme/web@{image}").status == 200


def each_sees_what_the_rights_allow():
    with a_registry() as (server, client):
        fill(client)
        push_manifest(server.client(basic("acme:secret")), "acme", "root", image_of(client, "acme", {}, [b"root"]))
        known = ["/ui/repositories/acme/web", "/ui/images/acme/web:latest", "/ui/repositories/acme/worker", "/ui/images/acme/worker:v1"]
        public = ["/ui/repositories/acme/public/base", "/ui/images/acme/public/base:v1"]
        missing = ["/ui/repositories/acme/none", "/ui/images/acme/none:v1", "/ui/delete/acme/none:v1"]
        for name, seen, tenants, repos in ((None, public, ["acme"], ["acme/public/base"]), ("other", public, ["acme"], ["acme/public/base"]),
                                           ("reader", public + known[:2], ["acme"], ["acme/public/base", "acme/web"]),
                                           ("acme", public + known, ["acme"], ["acme", "acme/public/base", "acme/web", "acme/worker"])):
            visitor = Visitor(server)
            if name:
                visitor.log_in(name)
            listed = [link.split("/")[-1] for link in links(visitor.get("/ui/")) if link.startswith("/ui/tenants/")]
            assert listed == tenants, (name, listed)
            listed = [link[17:] for link in links(visitor.get("/ui/tenants/acme")) if link.startswith("/ui/repositories/")]
            assert listed == repos, (name, listed)
            for path in known + public:
                answer = visitor.ask("GET", path)
                assert answer.status == (200 if path in seen else 404), (name, path, answer.status)
            # What may not be seen is as what is not there, but for its own path.
            for path in [path for path in known if path not in seen] + missing:
                text, same = visitor.get(path, 404), visitor.get(missing[0], 404)
                assert re.sub('to=[^"]*', "", text) == re.sub('to=[^"]*', "", same), (name, path)
            assert visitor.ask("GET", "/ui/tenants/other").status == visitor.ask("GET", "/ui/tenants/none").status == 404
            shared = words(Visitor.get(visitor, "/ui/images/acme/public/base:v1"))
            assert ("acme/worker" in shared, "acme/web" in shared) == (name == "acme", name in ("acme", "reader")), (name, shared)
            # Only who may push sees how full a tenant is, and only who may delete is asked.
            assert ("of 1.0 GB" in visitor.get("/ui/")) == (name == "acme")
            assert visitor.ask("GET", "/ui/delete/acme/public/base:v1").status == (200 if name == "acme" else 403)
            assert ("/ui/delete/acme/public/base:v1" in links(visitor.get("/ui/images/acme/public/base:v1"))) == (name == "acme")
        # A header with a password is none of the pages'.
        assert Visitor(server, basic("acme:secret")).ask("GET", known[0]).status == 404


def an_image_is_shown_whole():
    with a_registry() as (server, client):
        both, image, sbom = fill(client)
        visitor = Visitor(server)
        visitor.log_in("reader")
        text = visitor.get("/ui/repositories/acme/web")
        assert words(text).count("docker pull") == 3
        row = re.search('<tr role="row"><th role="rowheader" scope="row"><a href="/ui/images/acme/web:latest">.*?</tr>', text).group(0)
        assert re.search(rf"latest Image {sha256(both)[7:19]} Pushed less than a minute ago Size 3.6 MB Platforms 2 Pull command "
                         rf"docker pull {re.escape(server.address)}/acme/web:latest", words(row)), words(row)
        page = words(visitor.get("/ui/images/acme/web:latest"))
        for part in (f"docker pull {server.address}/acme/web:latest", f"Digest {sha256(both)}", f"Manifest {INDEX}", "Platforms", f"linux/amd64 Image {sha256(image)[7:19]} Size 3.6 MB",
                     "linux/arm64", "Referrers", f"SBOM {SPDX}", f"Signature {SIGNED}", "dev.sigstore.cosign/signature MEUCIQ==", "org.opencontainers.image.source https://git.example/acme/web"):
            assert part in page, (part, page)
        assert "Delete" not in page, page
        page = words(visitor.get(f"/ui/images/acme/web@{sha256(image)}"))
        for part in ("Size 3.6 MB", "Platform linux/amd64", "Created 2026-05-04T10:20:30Z", "Entrypoint /usr/bin/web", "Command --listen :8080", "User web", "Folder /srv", "Ports 8080/tcp",
                     "org.opencontainers.image.licenses Apache-2.0", f"1 Digest {sha256(b'base' * 700_000)[7:19]} Size 2.8 MB Shared with 2 images here acme/public/base Content ADD base.tar /",
                     "Shared with nothing Content COPY web /usr/bin/web", "Compared with 2 other images of this repository and with 1 other repository of the tenant."):
            assert part in page, (part, page)
        # The text of the SBOM is shown, and nothing else of it.
        text = next(link for link in links(visitor.get("/ui/images/acme/web:latest")) if link.startswith(f"/ui/text/acme/web@{sha256(sbom)}"))
        assert '"spdxVersion": "SPDX-2.3"' in words(visitor.get(text))
        blob = urllib.parse.quote(sha256(b"base" * 700_000))
        for path in (f"/ui/text/acme/web@{sha256(image)}?blob={blob}", f"/ui/text/acme/web@{sha256(sbom)}?blob={blob}", f"/ui/text/acme/web@{sha256(sbom)}"):
            visitor.get(path, 404)


def long_lists_have_pages():
    with a_registry() as (server, client):
        image = pushed(client, "acme/web", "v000")
        for number in range(1, 120):
            push_manifest(client, "acme/web", f"v{number:03}", image)
        layers = [b"%d" % number for number in range(130)]
        push_manifest(client, "acme/layers", "all", image_of(client, "acme/layers", config_of("amd64"), layers))
        for number in range(60):
            push_manifest(client, f"acme/app{number:02}", "v1", image_of(client, f"acme/app{number:02}", {}, [b"0"]))
        for number in range(25):
            referrer(client, "acme/web", image, SPDX, b"text %d" % number)
        visitor = Visitor(server)
        visitor.log_in("acme")

        def walk(path, pattern):
            """Returns what a pattern finds on a page and those after it."""
            found = []
            while path:
                text = visitor.get(path)
                found += re.findall(pattern, text)
                path = next(iter(re.findall('rel="next" href="([^"]*)"', text)), None)
                path = path and html.unescape(path)
            return found

        tags = [f"v{number:03}" for number in range(120)]
        of_tag = 'scope="row"><a href="/ui/images/acme/web:([^"]*)"'
        assert walk("/ui/repositories/acme/web", of_tag) == tags
        assert walk("/ui/repositories/acme/web?prefix=v01", of_tag) == tags[10:20] and walk("/ui/repositories/acme/web?prefix=v01&last=v015", of_tag) == tags[16:20]
        assert "No further tag begins with" in visitor.get("/ui/repositories/acme/web?prefix=x")
        of_repo = 'scope="row"><a href="/ui/repositories/([^"]*)"'
        assert walk("/ui/tenants/acme", of_repo) == [f"acme/app{number:02}" for number in range(60)] + ["acme/layers", "acme/web"]
        assert walk("/ui/tenants/acme?prefix=app1", of_repo) == [f"acme/app{number}" for number in range(10, 20)]
        numbers = walk("/ui/images/acme/layers:all", 'scope="row">([0-9]+)</th>')
        assert numbers == [str(number + 1) for number in range(130)]
        text = words(visitor.get("/ui/images/acme/layers:all"))
        assert "acme/app00 acme/app01 acme/app02 7 more" in text and "with 10 other repositories of the tenant; there are more" in text, text
        for odd in ("layer=0", "layer=-1", "layer=x", "layer=99999999999999999999", "referrer=%00", "layer=131"):
            visitor.get(f"/ui/images/acme/layers:all?{odd}")
        assert len(walk("/ui/images/acme/web:v000", "<h3>SBOM")) == 25


def a_login_lasts_until_it_is_taken_back():
    with users(*PEOPLE) as file, users(*RIGHTS) as rights, serving("--browse", "--log-level", "debug", "--htpasswd", file, "--rights", rights) as server:
        pushed(server.client(basic("acme:secret")), "acme/web")
        path = "/ui/repositories/acme/web"
        visitor, second = Visitor(server), Visitor(server)
        for user, password in (("acme", "wrong"), ("acme", ""), ("nobody", "secret"), ("", "")):
            answer = visitor.send("/ui/login", {"user": user, "password": password, "to": path})
            assert answer.status == 403 and not answer["Set-Cookie"] and not answer["WWW-Authenticate"] and "is wrong" in answer.body.decode(), user
        set_cookie = visitor.log_in("acme", to=path)["Set-Cookie"]
        assert re.fullmatch("registryd=[0-9a-f]{64}; Path=/; HttpOnly; SameSite=Strict", set_cookie), set_cookie
        second.log_in("acme")
        assert second.cookie != visitor.cookie and "Logged in as acme" in words(visitor.get(path))
        # Behind a proxy with TLS the cookie is for TLS alone, and a cookie of a plain connection is none there.
        secure = Visitor(server, {"X-Forwarded-Proto": "https"})
        set_cookie = secure.log_in("acme")["Set-Cookie"]
        assert re.fullmatch("__Host-registryd=[0-9a-f]{64}; Path=/; HttpOnly; SameSite=Strict; Secure", set_cookie), set_cookie
        secure.cookie = secure.cookie.replace("__Host-", "")
        secure.get(path, 404)
        # No cookie that nobody was given is a session.
        for cookie in ("registryd=", "registryd=" + "0" * 64, "registryd=acme", "x=" + visitor.cookie.split("=")[1]):
            stranger = Visitor(server)
            stranger.cookie = cookie
            stranger.get(path, 404)
        # Another login ends the session before it, and a logout its own. A logout of another site does nothing.
        before = visitor.cookie
        visitor.log_in("acme")
        stranger = Visitor(server)
        stranger.cookie = before
        stranger.get(path, 404)
        assert visitor.send("/ui/logout", {"token": "0" * 64}).status == 403
        visitor.get(path)
        kept = Visitor(server)
        kept.cookie = second.cookie
        assert kept.send("/ui/logout", {"token": second.token(path)}, {"Origin": "http://evil.example"}).status == 403
        second.get(path)
        answer = second.send("/ui/logout", {"token": second.token(path)})
        assert (answer.status, answer["Location"]) == (303, "/ui/") and "Max-Age=0" in answer["Set-Cookie"] and second.cookie is None
        kept.get(path, 404)
        # Another password, a user who is gone, and other rights hold for the next request.
        reader = Visitor(server)
        reader.log_in("reader")
        reader.get(path)
        with open(rights, "w") as out:
            out.write("acme read acme\n")
        server.reload("read the rights again")
        reader.get(path, 404)
        acme = Visitor(server)
        acme.log_in("acme")
        acme.get(path)
        with open(file, "w") as out:
            out.write(f"acme:{CHEAP.replace('$2y$', '$2b$')}\nreader:{CHEAP}\n")
        server.reload("read the users again")
        acme.get(path, 404)
        acme.log_in("acme")
        acme.get(path)
        with open(file, "w") as out:
            out.write(f"reader:{CHEAP}\n")
        server.reload("read the users again")
        acme.get(path, 404)
        for secret in [visitor.cookie, before, set_cookie.split(";")[0], "password=secret"]:
            assert secret.removeprefix("__Host-").removeprefix("registryd=") not in server.logged(), secret


def a_machine_logs_in_too():
    with serving_robots("--browse") as (server, control):
        secret = add(control, "ci", "read,write,delete:acme/web")
        pushed(server.client(basic(f"robot+ci:{secret}")), "acme/web")
        visitor = Visitor(server)
        assert visitor.send("/ui/login", {"user": "robot+ci", "password": "secret"}).status == 403
        visitor.log_in("robot+ci", secret)
        assert [link for link in links(visitor.get("/ui/")) if "tenants" in link] == ["/ui/tenants/acme"]
        assert "Logged in as robot+ci" in words(visitor.get("/ui/images/acme/web:v1"))
        robot(control, "revoke", "ci")
        visitor.get("/ui/images/acme/web:v1", 404)
        add(control, "ci", "read:acme/web")
        visitor.get("/ui/images/acme/web:v1", 404)


def a_delete_is_that_of_the_interface():
    with Receiver().begin() as receiver, receivers_file(receiver.entry()) as events, users("acme/web v1*") as immutable:
        with users(*PEOPLE) as file, users(*RIGHTS) as rights, audited("--browse", "--htpasswd", file, "--rights", rights, "--events", events, "--immutable-tags", immutable) as (server, audit):
            client = server.client(basic("acme:secret"))
            both, image, _ = fill(client)
            for tag in ("old", "gone"):
                push_manifest(client, "acme/web", tag, image)
            visitor = Visitor(server)
            visitor.log_in("acme")

            def delete(what, status):
                page = visitor.ask("GET", f"/ui/delete/{what}")
                assert page.status == 200, (what, page.status)
                token = visitor.token("/ui/delete/acme/worker:v1")
                answer = visitor.send(f"/ui/delete/{what}", {"token": token})
                assert answer.status == status, (what, answer.status, words(answer.body.decode()))
                return words(page.body.decode()), words(answer.body.decode()), 'class="danger"' in page.body.decode()

            asked, done, may = delete("acme/web:gone", 200)
            assert may and f"The tag gone goes. Its image {sha256(image)} stays" in asked and "The tag gone is deleted" in done, (asked, done)
            assert client.ask("GET", "/v2/acme/web/manifests/gone").status == 404 and client.ask("GET", f"/v2/acme/web/manifests/{sha256(image)}").status == 200
            # What holds it is named, and the refusal is that of the API.
            for what, held, api in ((f"acme/web@{sha256(image)}", f"The index {sha256(both)[7:19]} lists the image", "An index lists the manifest: delete the index first."),
                                    ("acme/web:v1.4.0", "The tag v1.4.0 is immutable", f"Tag v1.4.0 is immutable: it names {sha256(both)}, and cannot be moved or deleted."),
                                    (f"acme/web@{sha256(both)}", "The tag v1.4.0 is immutable", "cannot be moved or deleted.")):
                asked, done, may = delete(what, 409 if "immutable" in held else 403)
                assert held in asked and api in done and not may, (what, asked, done)
            asked, done, may = delete("acme/worker@" + sha256(client.ask("GET", "/v2/acme/worker/manifests/v1").body), 200)
            assert may and "With it go 1 tag: v1" in asked and "The repository acme/worker has nothing left." in done, (asked, done)
            assert client.ask("GET", "/v2/acme/worker/tags/list").status == 404
            visitor.get("/ui/delete/acme/web:gone", 404)
            # Each is in the audit log, with who did it, and the receiver has an event of each delete.
            wanted = [("acme/web", "gone", 200), ("acme/web", None, 403), ("acme/web", "v1.4.0", 409), ("acme/web", None, 409), ("acme/worker", None, 200)]
            of_deletes = lambda: [(line["repository"], line.get("tag"), line["status"]) for line in lines(audit) if line["action"] == "delete"]
            assert until(lambda: of_deletes() == wanted), of_deletes()
            assert {line["user"] for line in lines(audit) if line["action"] == "delete"} == {"acme"}
            assert any(line["action"] == "browse" and line.get("tag") == "gone" for line in lines(audit))
            assert until(lambda: sum(event["action"] == "delete" for event in receiver.events) >= 2), receiver.events


def forms_of_other_sites_change_nothing():
    with a_registry() as (server, client):
        pushed(client, "acme/web", "v1")
        visitor, other = Visitor(server), Visitor(server)
        visitor.log_in("acme")
        other.log_in("acme")
        path = "/ui/delete/acme/web:v1"
        token = visitor.token(path)
        of_site = {"Sec-Fetch-Site": "same-origin"}
        for fields, headers in (({}, {}), ({"token": ""}, {}), ({"token": "0" * 64}, {}), ({"token": other.token(path)}, {}), ({"token": token[:-1]}, {}),
                                ({"token": token}, {"Origin": "http://evil.example"}), ({"token": token}, {"Origin": "null"}), ({"token": token}, {"Origin": ""}),
                                ({"token": token}, {"Origin": "http://127.0.0.1:1"}), ({"token": token}, {"Sec-Fetch-Site": "cross-site"}),
                                ({"token": token}, {"Sec-Fetch-Site": "same-site"}), ({"token": token}, {"Sec-Fetch-Site": "none"})):
            answer = visitor.send(path, fields, headers)
            assert answer.status == 403, (fields, headers, answer.status)
        stranger = Visitor(server)
        assert stranger.send(path, {"token": token}).status == 404
        for method in ("GET", "HEAD"):
            assert visitor.ask(method, f"{path}?token={token}").status == 200
        for method, body, headers, status in (("DELETE", None, {}, 405), ("PUT", None, {}, 405), ("POST", f"token={token}", {"Content-Type": "text/plain"}, 415),
                                              ("POST", "token=" + "0" * 20_000, {"Content-Type": FORM}, 413), ("POST", b"token=\xff", {"Content-Type": FORM}, 400)):
            answer = visitor.ask(method, path, body, {"Origin": visitor.origin, **headers})
            assert answer.status == status, (method, headers, answer.status)
        assert client.ask("GET", "/v2/acme/web/manifests/v1").status == 200
        answer = visitor.send("/ui/login", {"user": "acme", "password": "secret"}, {"Origin": "http://evil.example"})
        assert answer.status == 403 and not answer["Set-Cookie"], "a login of another site"
        for to in ("//evil.example", "https://evil.example/", "/ui//evil", "javascript:alert(1)", "/v2/"):
            assert Visitor(server).send("/ui/login", {"user": "acme", "password": "secret", "to": to})["Location"] == "/ui/", to
        assert visitor.send(path, {"token": token}, {"Origin": "http://evil.example", **of_site}).status == 200, "the browser says what sent it"
        assert client.ask("GET", "/v2/acme/web/manifests/v1").status == 404


def each_page_has_its_headers():
    with a_registry() as (server, client):
        fill(client)
        visitor = Visitor(server)
        visitor.log_in("acme")
        for path in ("/ui/", "/ui/tenants/acme", "/ui/repositories/acme/web", "/ui/images/acme/web:latest", "/ui/delete/acme/web:latest", "/ui/login", "/ui/none"):
            for method in ("GET", "HEAD"):
                answer = visitor.ask(method, path)
                policy = dict(part.split(" ", 1) for part in answer["Content-Security-Policy"].split("; "))
                assert policy == {"default-src": "'none'", "style-src": "'self'", "script-src": "'self'", "img-src": "'self'", "form-action": "'self'", "base-uri": "'none'",
                                  "frame-ancestors": "'none'"}, policy
                for name, value in (("X-Content-Type-Options", "nosniff"), ("X-Frame-Options", "DENY"), ("Referrer-Policy", "same-origin"), ("Cache-Control", "no-store"),
                                    ("Content-Type", "text/html; charset=utf-8"), ("Cross-Origin-Opener-Policy", "same-origin")):
                    assert answer[name] == value, (path, name, answer[name])
                assert (method == "HEAD") == (answer.body == b"")
            text = visitor.get(path, 404 if path == "/ui/none" else 200)
            # Nothing is in the page that the policy would have to permit, or that comes from elsewhere.
            assert not re.search(r"<style|<script(?! src=\"/ui/copy\.js\" defer></script>)|\son[a-z]+=|style=|(?:src|action)=\"(?!/ui/)", text), path
            assert all(link.startswith(("/ui/", "#")) for link in links(text)), links(text)
        for path, kind in (("/ui/style.css", "text/css; charset=utf-8"), ("/ui/copy.js", "text/javascript; charset=utf-8"), ("/ui/icon.svg", "image/svg+xml")):
            answer = visitor.ask("GET", path)
            assert (answer.status, answer["Content-Type"], answer["X-Content-Type-Options"]) == (200, kind, "nosniff")


def hostile(client):
    """Pushes what has hostile texts wherever a client may write some. Returns the paths of pages that show them."""
    steps = {"config": {"Entrypoint": [HOSTILE], "Cmd": HOSTILE, "User": HOSTILE, "WorkingDir": HOSTILE, "Labels": {HOSTILE: HOSTILE}, "ExposedPorts": {HOSTILE: {}}},
             "os": HOSTILE, "architecture": HOSTILE, "created": HOSTILE, "history": [{"created_by": HOSTILE}]}
    image = image_of(client, "acme/web", steps, [b"layer", b"other"], annotations={HOSTILE: HOSTILE})
    image = image.replace(json.dumps(LAYER).encode(), json.dumps("text/" + HOSTILE).encode())
    push_manifest(client, "acme/web", "image", image)
    listed = {**descriptor(image), "platform": {"os": HOSTILE, "architecture": HOSTILE}}
    both = index(listed, annotations={HOSTILE: HOSTILE}, artifactType=HOSTILE)
    push_manifest(client, "acme/web", "index", both, INDEX)
    text = f"<!DOCTYPE html>{HOSTILE}<svg onload='window.ran = 3'>".encode()
    report = referrer(client, "acme/web", both, f"text/html;{HOSTILE}", text, {HOSTILE: HOSTILE})
    return ["/ui/repositories/acme/web", "/ui/images/acme/web:image", "/ui/images/acme/web:index", f"/ui/images/acme/web@{sha256(report)}",
            f"/ui/text/acme/web@{sha256(report)}?blob={urllib.parse.quote(sha256(text))}", f"/ui/delete/acme/web@{sha256(image)}",
            "/ui/repositories/acme/web?" + urllib.parse.urlencode({"prefix": HOSTILE}), "/ui/tenants/acme?" + urllib.parse.urlencode({"prefix": HOSTILE, "last": HOSTILE}),
            "/ui/login?" + urllib.parse.urlencode({"to": "/ui/" + HOSTILE}), "/ui/images/" + urllib.parse.quote(HOSTILE)]


def a_crowd_is_served():
    """Pages that compare images are shown to many at once, without the comparison if too many ask for one."""
    with a_registry() as (server, client):
        _, image, _ = fill(client)
        path = f"/ui/images/acme/web@{sha256(image)}"
        first = Visitor(server)
        first.log_in("acme")

        def look(_):
            visitor = Visitor(server)
            visitor.cookie = first.cookie
            texts = [visitor.get(path) for _ in range(5)]
            return ["Compared with 2 other images" in text or "Not compared" in text for text in texts]

        with concurrent.futures.ThreadPoolExecutor(60) as pool:
            assert all(all(found) for found in pool.map(look, range(60)))
        assert "Compared with 2 other images" in words(first.get(path))


def a_manifest_that_is_odd_is_shown():
    """What the registry accepts is shown as far as it can be, and can be deleted. A referrer that is odd harms no page of its subject."""
    with a_registry() as (server, client):
        image = pushed(client, "acme/web", "v1")
        visitor = Visitor(server)
        visitor.log_in("acme")
        described = json.dumps(descriptor(image))
        accepted = 0
        for number, text in enumerate(('{"schemaVersion":2,"mediaType":"%s","manifests":7}' % INDEX, '{"schemaVersion":2,"mediaType":"%s","manifests":[7,{"digest":"x"}]}' % INDEX,
                                       '{"schemaVersion":2,"mediaType":"%s","manifests":[],"manifests":[],"subject":%s}' % (INDEX, described),
                                       '{"schemaVersion":2,"mediaType":"%s","manifests":[{"platform":7}],"annotations":{"a":[1]},"subject":%s}' % (INDEX, described),
                                       '{"schemaVersion":2,"mediaType":"%s","manifests":[%s]}' % (INDEX, ",".join([described] * 900)),
                                       '{"schemaVersion":2,"mediaType":"%s","manifests":[],"x":%s}' % (INDEX, "[" * 100 + "]" * 100))):
            if client.ask("PUT", f"/v2/acme/web/manifests/odd{number}", text, {"Content-Type": INDEX}).status == 201:
                accepted += 1
                visitor.get(f"/ui/images/acme/web:odd{number}")
                visitor.get("/ui/images/acme/web:v1")
                path = f"/ui/delete/acme/web:odd{number}"
                visitor.get("/ui/repositories/acme/web")
                assert visitor.send(path, {"token": visitor.token(path)}).status == 200
        assert accepted >= 3, accepted


def no_text_runs():
    """With the policy of the pages, and without, so that it is the escaping that holds."""
    with a_registry() as (server, client), browsing(server.address) as browser:
        paths = hostile(client)
        log_in(browser, "acme")
        shown = 0
        for is_off in (False, True):
            browser.call("Page.setBypassCSP", enabled=is_off)
            for path in paths:
                browser.visit(path)
                ran = browser.value("[window.ran, document.querySelectorAll('img, svg, iframe, body script, [onclick], [onerror], [onload]').length]")
                assert ran in ([None, 0], [0]) or ran[-1] == 0 and len(ran) == 2 and ran[0] is None, (path, ran)
                shown += browser.value(f"document.body.textContent.includes({json.dumps(HOSTILE[:40])})")
            found = [fault for fault in browser.faults() if "status of 404" not in fault]
            assert not found, found
        assert shown >= 12, shown
        # A name of a user is a text too.
        browser.visit("/ui/login")
        browser.write("user", HOSTILE)
        browser.write("password", HOSTILE)
        browser.click("Log in")
        assert browser.value("window.ran") is None and browser.value("document.getElementById('user').value") == HOSTILE


def log_in(browser, user):
    browser.visit("/ui/login")
    browser.write("user", user)
    browser.write("password", "secret")
    browser.click("Log in")


def pages_of(client):
    """Pushes what the pages show, and returns a path of each kind, with its name for a picture."""
    both, image, sbom = fill(client)
    text = json.loads(sbom)["layers"][0]["digest"]
    return {"tenants": "/ui/", "repositories": "/ui/tenants/acme", "tags": "/ui/repositories/acme/web", "index": "/ui/images/acme/web:latest", "image": f"/ui/images/acme/web@{sha256(image)}",
            "text": f"/ui/text/acme/web@{sha256(sbom)}?blob={text}", "delete": "/ui/delete/acme/web:latest", "delete-image": f"/ui/delete/acme/web@{sha256(both)}",
            "kept": f"/ui/delete/acme/web@{sha256(image)}", "login": "/ui/login", "missing": "/ui/none", "empty": "/ui/repositories/acme/web?prefix=x"}


def each_page_can_be_read():
    """At the width of a phone and of a desk, light and dark: nothing is cut, contrasts suffice, and each control has a name."""
    with a_registry() as (server, client), browsing(server.address) as browser:
        paths = [*pages_of(client).values(), *hostile(client)[:6]]
        log_in(browser, "acme")
        for width, height in WINDOWS:
            browser.window(width, height)
            for path in paths:
                browser.visit(path)
                wide = browser.value(TOO_WIDE)
                assert not wide, (width, path, wide)
                assert not browser.nameless(), (width, path, browser.nameless())
                for scheme in ("light", "dark"):
                    browser.scheme(scheme)
                    weak = browser.value(CONTRASTS)
                    assert not weak, (scheme, width, path, weak)
                frame = browser.value("[document.documentElement.lang, document.title.length > 3, document.querySelectorAll('main').length, document.querySelectorAll('h1').length,"
                                      " document.querySelectorAll('nav').length > 0, document.querySelectorAll('[id]').length - new Set([...document.querySelectorAll('[id]')].map(part => part.id)).size]")
                assert frame == ["en", True, 1, 1, True, 0], (path, frame)
        found = [fault for fault in browser.faults() if "status of 404" not in fault]
        assert not found, found


def the_check_of_contrasts_finds_some():
    with a_registry() as (server, client), browsing(server.address) as browser:
        browser.visit("/ui/login")
        assert browser.value(CONTRASTS) == [] and browser.value(TOO_WIDE) == [] and browser.nameless() == []
        browser.value("document.querySelector('h1').style.color = 'rgb(150, 150, 150)'")
        browser.value("document.querySelector('label').remove()")
        browser.value("document.querySelector('main').style.minWidth = '3000px'")
        assert len(browser.value(CONTRASTS)) == 1 and len(browser.value(TOO_WIDE)) > 1 and browser.nameless() == ["textbox"]


def a_keyboard_is_enough():
    """Logs in, finds an image, and deletes it, by keys alone. The focus can be seen, and the first key leads over the frame."""
    with a_registry() as (server, client), browsing(server.address) as browser:
        pushed(client, "acme/web", "v1")
        browser.visit("/ui/")
        browser.key("Tab")
        assert browser.focus() == "Skip to the content"
        browser.key("Enter")
        assert browser.value("document.activeElement.id") == "content"
        browser.visit("/ui/")

        def follow(name):
            browser.tab_to(name)
            style = browser.value("(style => [style.outlineStyle, parseFloat(style.outlineWidth) >= 2])(getComputedStyle(document.activeElement))")
            assert style == ["solid", True], (name, style)
            browser.loads(lambda: browser.key("Enter"))

        follow("Log in")
        for field, text in (("User", "acme"), ("Password", "secret")):
            browser.tab_to(field)
            browser.call("Input.insertText", text=text)
        browser.loads(lambda: browser.key("Enter"))
        assert "Logged in as acme" in browser.text(), browser.text()
        for name in ("acme", "acme/web", "v1", "Delete the tag v1"):
            follow(name)
        follow("Delete")
        assert "The tag v1 is deleted" in browser.text(), browser.text()
        assert client.ask("GET", "/v2/acme/web/manifests/v1").status == 404
        follow("Back to acme/web")
        follow("Log out")
        assert "Log in" in browser.text() and "Logged in" not in browser.text()
        cookies = browser.call("Network.getCookies", urls=[browser.base + "/ui/"])["cookies"]
        assert not cookies, cookies


def a_person_deletes_after_a_question():
    with a_registry() as (server, client), browsing(server.address) as browser:
        fill(client)
        browser.visit("/ui/images/acme/web:latest")
        assert "Not found" in browser.text()
        browser.click("Log in")
        browser.write("user", "acme")
        browser.write("password", "wrong")
        browser.click("Log in")
        assert "The user or the password is wrong." in browser.text() and browser.value("document.getElementById('user').value") == "acme"
        browser.write("password", "secret")
        browser.click("Log in")
        # The login leads to the page that was asked for.
        assert browser.path() == "/ui/images/acme/web:latest", browser.path()
        cookie, = browser.call("Network.getCookies", urls=[browser.base + "/ui/"])["cookies"]
        assert cookie["httpOnly"] and cookie["sameSite"] == "Strict" and cookie["session"], cookie
        assert browser.value("document.cookie") == ""
        browser.click("Delete the tag latest")
        browser.click("Keep it")
        assert client.ask("GET", "/v2/acme/web/manifests/latest").status == 200
        browser.click("Delete the image with all its tags")
        assert "latest v1.4.0" in browser.text(), browser.text()
        browser.click("Delete")
        assert "is deleted" in browser.text()
        for tag in ("latest", "v1.4.0"):
            assert client.ask("GET", f"/v2/acme/web/manifests/{tag}").status == 404
        # The command can be copied by a button, which a page without a script does not have.
        browser.call("Browser.grantPermissions", permissions=["clipboardReadWrite", "clipboardSanitizedWrite"], origin=browser.base)
        browser.click("Back to acme/web")
        browser.value("document.querySelector('.command button').click()")
        browser.waits("document.querySelector('.copied').textContent !== ''")
        assert browser.value("document.querySelector('.command button').getAttribute('aria-label')") == f"Copy: docker pull {server.address}/acme/web:v1.3.2"
        assert not [fault for fault in browser.faults() if "status of 404" not in fault and "status of 403" not in fault]
        assert "<button" not in re.sub('<form.*?</form>', "", Visitor(server).get("/ui/login"))


def pictures(folder):
    """Writes the pictures of the documents."""
    os.makedirs(folder, exist_ok=True)
    with a_registry() as (server, client), browsing(server.address) as browser:
        paths = pages_of(client)
        log_in(browser, "acme")
        for name, width, scheme in (("tags", 1280, "light"), ("index", 1280, "dark"), ("image", 1280, "light"), ("tags", 360, "light"), ("image", 360, "dark"), ("delete-image", 360, "light")):
            browser.window(width, 740 if width < 600 else 1150 if name == "image" else 800)
            browser.scheme(scheme)
            browser.visit(paths[name])
            # The address of the test is of no use to a reader.
            browser.value(f"for (const walk = document.createTreeWalker(document.body, 4); walk.nextNode();) walk.currentNode.data = walk.currentNode.data.replace({json.dumps(server.address)}, 'registry.example')")
            browser.picture(f"{folder}/browsing-{name}-{width}.png")


def measure():
    """Prints the median time of pages of large repositories, in milliseconds."""
    with a_registry("--slots", "65536") as (server, client):
        images = [manifest_of(b"{}", [b"%d" % number]) for number in range(900)]
        for number, image in enumerate(images):
            push(client, "acme/many", b"%d" % number)
            push(client, "acme/many", b"{}")
            push_manifest(client, "acme/many", f"image{number:05}", image)
        for number in range(9100):
            push_manifest(client, "acme/many", f"tag{number:05}", images[number % 900])
        layers = [b"layer %d" % number for number in range(4000)]
        push_manifest(client, "acme/deep", "v1", image_of(client, "acme/deep", {}, layers))
        for number in range(300):
            push_manifest(client, f"acme/app{number:03}", "v1", image_of(client, f"acme/app{number:03}", {}, [b"layer 1"]))
        visitor = Visitor(server)
        visitor.log_in("acme")
        digest = sha256(images[7])
        for path in ("/ui/", "/ui/tenants/acme", "/ui/repositories/acme/many", "/ui/repositories/acme/many?last=tag05000", "/ui/images/acme/many:image00007", "/ui/images/acme/deep:v1",
                     "/ui/images/acme/app000:v1", f"/ui/delete/acme/many@{digest}"):
            times = []
            for _ in range(15):
                begun = time.perf_counter()
                size = len(visitor.get(path))
                times.append(1000 * (time.perf_counter() - begun))
            print(f"{path[:60]:60} {statistics.median(times):7.1f} ms {size:8} bytes")


def main():
    if sys.argv[1:2] == ["--pictures"]:
        return pictures(sys.argv[2])
    if sys.argv[1:2] == ["--measure"]:
        return measure()
    play("browsing", [pages_are_served_if_asked_for, each_sees_what_the_rights_allow, an_image_is_shown_whole, long_lists_have_pages, a_login_lasts_until_it_is_taken_back,
                      a_machine_logs_in_too, a_delete_is_that_of_the_interface, forms_of_other_sites_change_nothing, each_page_has_its_headers, a_crowd_is_served, a_manifest_that_is_odd_is_shown, no_text_runs, each_page_can_be_read,
                      the_check_of_contrasts_finds_some, a_keyboard_is_enough, a_person_deletes_after_a_question])


if __name__ == "__main__":
    main()
