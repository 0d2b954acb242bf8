"""The page's server: it shows one network and passes questions on."""

from __future__ import annotations

import gzip

from flask import Flask, Response, abort, jsonify, request, send_from_directory

from .client import ClientError, Refused
from .command import Fault
from .desk import Desk
from .ends import EndFault
from .web_files import LEAFLET, WEB, content_policy

OWN_NAMES = ("127.0.0.1", "localhost", "[::1]")


def make_site(desk: Desk) -> Flask:
    site = Flask(__name__, static_folder=None)
    _guard(site, desk)
    _tell_faults(site, desk)
    _serve_files(site)
    _serve_map(site, desk)
    _serve_answers(site, desk)
    _serve_closures(site, desk)
    return site


def _guard(site: Flask, desk: Desk) -> None:
    policy = content_policy(desk.tiles)

    @site.before_request
    def only_from_here() -> None:
        """Other sites' pages may not ask through a name that they let lead here, and may not
        change anything.
        """
        if request.host.rsplit(":", 1)[0] not in OWN_NAMES:
            abort(403)
        if request.method == "POST" and not request.is_json:
            abort(415)

    @site.after_request
    def only_own(response: Response) -> Response:
        response.headers["Content-Security-Policy"] = policy
        return response


def _tell_faults(site: Flask, desk: Desk) -> None:
    @site.errorhandler(Refused)
    def refused(fault: Refused) -> tuple[Response, int]:
        return jsonify(error=str(fault), **desk.advice(fault)), 400

    @site.errorhandler(EndFault)
    def no_end(fault: EndFault) -> tuple[Response, int]:
        return jsonify(error=str(fault), code=fault.code, values=fault.values), 400

    @site.errorhandler(Fault)
    @site.errorhandler(ClientError)
    def tell(fault: Exception) -> tuple[Response, int]:
        return jsonify(error=str(fault)), 400 if isinstance(fault, Fault) else 502


def _serve_files(site: Flask) -> None:
    @site.get("/")
    def index() -> Response:
        return send_from_directory(WEB, "index.html")

    @site.get("/web/<name>")
    def web(name: str) -> Response:
        return send_from_directory(WEB, name)

    @site.get("/leaflet/<path:name>")
    def leaflet(name: str) -> Response:
        return send_from_directory(LEAFLET, name)


def _serve_map(site: Flask, desk: Desk) -> None:
    @site.get("/api/network")
    def about() -> Response:
        return jsonify(desk.about)

    @site.get("/tile/<int:zoom>/<int:x>/<int:y>")
    def tile(zoom: int, x: int, y: int) -> Response:
        packed = gzip.compress(desk.tile(zoom, x, y), 5)
        response = Response(packed, mimetype="application/octet-stream")
        response.headers["Content-Encoding"] = "gzip"
        response.headers["Cache-Control"] = "max-age=60"
        return response

    @site.get("/api/labels")
    def labels() -> Response:
        box = _numbers("box", 4)
        return jsonify(desk.labels((box[0], box[1], box[2], box[3]), int(_number("zoom"))))

    @site.get("/api/nearest")
    def nearest() -> Response:
        return jsonify(desk.ends.at(_number("lon"), _number("lat")))

    @site.get("/api/find")
    def find() -> Response:
        return jsonify(desk.ends.find(request.args.get("text", "")))

    @site.get("/api/suggest")
    def suggest() -> Response:
        return jsonify(names=desk.ends.suggestions(request.args.get("text", "")))


def _serve_answers(site: Flask, desk: Desk) -> None:
    @site.get("/api/ask")
    def ask() -> Response:
        return jsonify(desk.ask(desk.question(request.args)))

    @site.get("/api/geojson")
    def export() -> Response:
        return Response(
            desk.export(desk.question(request.args)),
            mimetype="application/geo+json",
            headers={"Content-Disposition": "attachment; filename=alternatives.geojson"},
        )


def _serve_closures(site: Flask, desk: Desk) -> None:
    @site.get("/api/state")
    def state() -> Response:
        return jsonify(desk.state())

    @site.post("/api/preview")
    def preview() -> Response:
        return jsonify(desk.preview(_asked()))

    @site.post("/api/close")
    def close() -> Response:
        return jsonify(desk.close(_asked()))

    @site.post("/api/undo")
    def undo() -> Response:
        return jsonify(desk.undo(str(_asked().get("id", ""))))


def _asked() -> dict[str, object]:
    asked = request.get_json()
    if not isinstance(asked, dict):
        raise Fault("an object of JSON is due")
    return asked


def _number(name: str) -> float:
    try:
        return float(request.args[name])
    except (KeyError, ValueError):
        raise Fault(f"{name} is no number") from None


def _numbers(name: str, count: int) -> list[float]:
    try:
        numbers = [float(part) for part in request.args[name].split(",")]
    except (KeyError, ValueError):
        numbers = []
    if len(numbers) != count:
        raise Fault(f"{name} aren't {count} numbers")
    return numbers
