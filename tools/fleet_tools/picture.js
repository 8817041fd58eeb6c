// Search, zoom and ties of a picture of units: each unit is a group with its name, each line a path with the names of its ends.
(function () {
  const svg = document.documentElement, bar = document.getElementById("bar"), field = document.getElementById("search");
  const told = document.getElementById("told"), units = [...svg.querySelectorAll("g[data-unit]")], lines = [...svg.querySelectorAll("path[data-from]")];
  const wide = svg.viewBox.baseVal.width, tall = svg.viewBox.baseVal.height;
  let zoom = 1, found = [], at = -1, kept = null;
  const set = (it, name, on) => it.classList.toggle(name, on);
  function place() {
    const right = Math.max(0, Math.min(innerWidth - 20, wide * zoom) - bar.dataset.wide), top = Math.max(0, bar.dataset.top * zoom - scrollY);
    bar.setAttribute("transform", `translate(${(scrollX + right) / zoom} ${(scrollY + top) / zoom}) scale(${1 / zoom})`);
  }
  function zoomed(to, x = innerWidth / 2, y = innerHeight / 2) {
    const left = (scrollX + x) / zoom, top = (scrollY + y) / zoom;
    zoom = Math.min(8, Math.max(0.1, to));
    svg.setAttribute("width", wide * zoom);
    svg.setAttribute("height", tall * zoom);
    scrollTo(left * zoom - x, top * zoom - y);
    place();
  }
  function ways(name, from, to) {
    const those = new Set([name]), waiting = [name];
    while (waiting.length) {
      const here = waiting.pop();
      for (const it of lines) if (it.dataset[from] === here && !those.has(it.dataset[to])) { those.add(it.dataset[to]); waiting.push(it.dataset[to]); }
    }
    return those;
  }
  function light(name) {
    const above = name && ways(name, "to", "from"), below = name && ways(name, "from", "to");
    const both = (it) => (above.has(it.from) && above.has(it.to)) || (below.has(it.from) && below.has(it.to));
    units.forEach((it) => set(it, "dim", !!name && !above.has(it.dataset.unit) && !below.has(it.dataset.unit)));
    lines.forEach((it) => { set(it, "dim", !!name && !both(it.dataset)); set(it, "lit", !!name && both(it.dataset)); });
  }
  function search() {
    const word = field.value.trim().toLowerCase();
    found = word ? units.filter((it) => it.dataset.unit.toLowerCase().includes(word)) : [];
    units.forEach((it) => set(it, "found", found.includes(it)));
    at = -1;
    told.textContent = word ? `${found.length} found` : "";
  }
  function next(step) {
    if (!found.length) return;
    at = (at + step + found.length) % found.length;
    const box = found[at].querySelector("rect").getBBox();
    scrollTo((box.x + box.width / 2) * zoom - innerWidth / 2, (box.y + box.height / 2) * zoom - innerHeight / 2);
    told.textContent = `${at + 1} of ${found.length}`;
    light(found[at].dataset.unit);
  }
  units.forEach((it) => {
    it.addEventListener("mouseenter", () => kept || light(it.dataset.unit));
    it.addEventListener("mouseleave", () => kept || light(null));
    it.addEventListener("click", () => { kept = kept === it ? null : it; light(kept && it.dataset.unit); });
  });
  field.addEventListener("input", search);
  field.addEventListener("keydown", (it) => { if (it.key === "Enter") next(it.shiftKey ? -1 : 1); it.stopPropagation(); });
  for (const [name, by] of [["more", 1.25], ["less", 0.8]]) document.getElementById(name).addEventListener("click", () => zoomed(zoom * by));
  document.getElementById("fit").addEventListener("click", () => zoomed(innerWidth / wide));
  addEventListener("wheel", (it) => { if (it.ctrlKey) { it.preventDefault(); zoomed(zoom * (it.deltaY < 0 ? 1.1 : 0.9), it.clientX, it.clientY); } }, { passive: false });
  addEventListener("keydown", (it) => {
    if (it.key === "+") zoomed(zoom * 1.25); else if (it.key === "-") zoomed(zoom * 0.8); else if (it.key === "0") zoomed(1);
    else if (it.key === "/") { field.focus(); it.preventDefault(); } else if (it.key === "Escape") { kept = null; light(null); }
  });
  addEventListener("scroll", place);
  addEventListener("resize", place);
  place();
})();
