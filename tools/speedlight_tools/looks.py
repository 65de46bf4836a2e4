"""The colours of verdicts, and pictures as SVG that are the same each time."""

COLOURS = {
    "consistent": "#2a8f4d",
    "skipped": "#c62828",
    "miscredited": "#8e24aa",
    "pending": "#e0a100",
    "not issued": "#b4b4b4",
}


def pyplot():
    """matplotlib's pyplot, set to write the same SVG for the same values. It must be there: see needs."""
    import matplotlib

    matplotlib.use("Agg")
    matplotlib.rcParams.update(
        {
            "svg.hashsalt": "speedlight",
            "svg.fonttype": "none",
            "font.family": "DejaVu Sans",
            "font.size": 10,
            "axes.spines.top": False,
            "axes.spines.right": False,
            "figure.facecolor": "white",
        }
    )
    from matplotlib import pyplot as plot

    return plot


def svg_of(figure):
    """The figure as the text of an SVG, without the day on which it was made."""
    import io

    text = io.StringIO()
    figure.savefig(text, format="svg", bbox_inches="tight", metadata={"Date": None, "Creator": None})
    return text.getvalue()
