// Reads every drawn grid of the page and says what it shows, as one text: to the server, or in place of the page.

// The properties of the declarations that the browser doesn't read: they are missing in its style.
function unread(element) {
  const written = element.getAttribute("style").split(";").filter((text) => text !== "").map((text) => text.split(":")[0]);
  return written.filter((property) => element.style.getPropertyValue(property) === "");
}

// A box from the edges of its grid: left, top, width, height.
function box(element, frame) {
  const own = element.getBoundingClientRect();
  return [own.left - frame.left, own.top - frame.top, own.width, own.height];
}

// One grid is on the page at a time: Firefox lays the page out anew for each list of tracks that is asked for.
function show(grid) {
  document.body.replaceChildren(grid);
  const computed = getComputedStyle(grid);
  const frame = grid.getBoundingClientRect();
  const items = [...grid.children];
  return {
    unread: [grid, ...items].flatMap(unread),
    columns: computed.gridTemplateColumns,
    rows: computed.gridTemplateRows,
    boxes: items.map((item) => box(item, frame)),
  };
}

const shown = JSON.stringify([...document.querySelector("template").content.children].map(show));
if (location.protocol === "http:") {
  fetch("/shown", { method: "POST", body: shown }).then(() => location.replace("/page"));
} else {
  document.body.textContent = shown;
}
