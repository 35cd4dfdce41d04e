"""What the tests of `geojson-to-desk` share: files of features, and the words of a command line."""
from __future__ import annotations

import json
from typing import Any, Dict, List

from tests.running import read

COMMON = read("geojson/common.args").splitlines()
RING = [[[0, 0], [1, 0], [1, 1], [0, 0]]]


def feature(coordinates: Any, name: Any = "a", kind: str = "Polygon", **properties: Any) -> Dict[str, Any]:
    """A feature of coordinates."""
    return {"type": "Feature", "id": name, "properties": properties, "geometry": {"type": kind, "coordinates": coordinates}}


def collection(features: List[Any]) -> str:
    """A file of features."""
    return json.dumps({"type": "FeatureCollection", "features": features})
# The commit line that geojson-to-desk writes.
COMMIT = '{"commit":{"stamp":"now"}}\n'
