from __future__ import annotations


def test_check(tool, town, tmp_path):
    text = tool("check.py", town.folder)
    assert (
        "17 nodes" in text
        and "strongly connected parts: 1 of 17 nodes" in text
        and "parallel arcs: 2" in text
    )
    assert "toll: 0 to 250" in text
    lines, pairs = tmp_path / "lines", tmp_path / "pairs.csv"
    lines.write_text(tool("ops.py", town.folder, "shut", "--road", "Spur"))
    tool("apply.py", town.folder, lines, tmp_path / "cut")
    pairs.write_text('from,to\nNorthend,Southend\nNorthend,"10.013,49.9965"\n')
    assert "no walk" not in tool("check.py", town.folder, pairs)
    failed = tool("check.py", tmp_path / "cut", status=0)
    assert "1 of 16 nodes, 1 of 1 nodes" in failed
    tool("check.py", tmp_path / "cut", pairs, status=1)
