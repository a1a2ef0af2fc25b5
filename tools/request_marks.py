"""The marks of requests in a picture."""

READS = ("GetObject", "HeadObject", "ListObjectsV2", "ListParts", "ListMultipartUploads", "ClusterGet", "ClusterList")
FATES = {"slow": "S3 answered SlowDown", "lost-before": "lost on the way to S3", "lost-after": "took effect, but the reply was lost"}


def dots(x, y):
    return "".join(f'<circle cx="{x + by:.1f}" cy="{y:.1f}" r="1.6" fill="#000"/>' for by in (-5, 0, 5))


def marks(request, x, y, size):
    """The shapes of a request's mark around x: below, what it did; above, that its reply is missing."""
    half = min(size, 9) / 2
    if request["outcome"] == "slow":
        yield f'<text x="{x - 3.5:.1f}" y="{y + 16:.1f}" font-size="12" font-weight="bold">s</text>'
    elif request["outcome"] != "answered":
        up = y + (4 if request["effect"] else 12)
        yield (f'<path d="M{x - half:.1f} {up - half:.1f}l{2 * half:.1f} {2 * half:.1f}m0 {-2 * half:.1f}l{-2 * half:.1f} {2 * half:.1f}" '
               'stroke="#c00000" stroke-width="2" fill="none"/>')
    if request["effect"] and request["op"] in READS:
        yield f'<circle cx="{x:.1f}" cy="{y + 12:.1f}" r="{half * 0.7:.1f}" fill="#fff" stroke="#000"/>'
    elif request["effect"]:
        yield f'<rect x="{x - half:.1f}" y="{y + 8:.1f}" width="{2 * half:.1f}" height="8" fill="#000"/>'
    elif "error" in request:
        yield f'<path d="M{x - half:.1f} {y + 12:.1f}l{half:.1f} {-half:.1f}l{half:.1f} {half:.1f}l{-half:.1f} {half:.1f}z" fill="#fff" stroke="#000"/>'
