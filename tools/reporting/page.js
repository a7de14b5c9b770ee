"use strict";
document.documentElement.classList.add("scripts");
const one = (rule, at = document) => at.querySelector(rule);
const all = (rule, at = document) => [...at.querySelectorAll(rule)];

// Tables: a column is sorted by its numbers, where it has some, or else by its words.
const valueOf = (row, column) => {
  const cell = row.cells[column];
  const number = cell.dataset.ps ?? cell.dataset.v ?? cell.textContent.replace(/ %$/, "");
  return number.trim() === "" || isNaN(number) ? cell.textContent : Number(number);
};
const compare = (a, b) => (typeof a === "number" && typeof b === "number" ? a - b : String(a).localeCompare(String(b)));
const sortBy = (table, head) => {
  const column = head.cellIndex;
  const down = head.getAttribute("aria-sort") === "ascending";
  all("th", table.tHead).forEach((other) => other.removeAttribute("aria-sort"));
  head.setAttribute("aria-sort", down ? "descending" : "ascending");
  const rows = [...table.tBodies[0].rows].map((row) => [valueOf(row, column), row]);
  rows.sort(([a], [b]) => compare(a, b) * (down ? -1 : 1));
  table.tBodies[0].append(...rows.map(([, row]) => row));
};
all("table.sort").forEach((table) =>
  all("th", table.tHead).forEach((head) => {
    const button = document.createElement("button");
    button.type = "button";
    button.append(...(head.childNodes.length ? head.childNodes : ["no."]));
    button.addEventListener("click", () => sortBy(table, head));
    head.append(button);
  }),
);

// Routes and hops that are data are made where they are wanted.
const data = one("#data") ? JSON.parse(one("#data").textContent) : null;
const makeRoute = (number) => {
  const group = document.createElementNS(one("#net").namespaceURI, "g");
  group.setAttribute("class", "r");
  group.id = `r${number}`;
  data.ways[number].forEach((port) => {
    const use = document.createElementNS(group.namespaceURI, "use");
    use.setAttribute("href", `#p${port}`);
    group.append(use);
  });
  one("#net").insertBefore(group, one("#net .node, #net .bar"));
  return group;
};
const routeOf = (number) => one(`#r${number}`) ?? (data?.ways[number] ? makeRoute(number) : null);
const up = (ps) => (Math.ceil(ps / 1000) / 1000).toFixed(3);
const down = (ps) => (Math.floor(ps / 1000) / 1000).toFixed(3);
const cellOf = (text, kind) => {
  const cell = document.createElement("td");
  cell.textContent = text;
  cell.className = kind ?? "";
  return cell;
};
const partsOf = (parts, longest) => {
  const bar = document.createElement("div");
  bar.className = "parts";
  ["lower", "bursts", "higher", "frame", "latency"].forEach((name, k) => {
    const part = document.createElement("b");
    part.className = name;
    part.style.width = `${(100 * parts[k]) / longest}%`;
    bar.append(part);
  });
  const cell = cellOf("");
  cell.append(bar);
  return cell;
};
const whose = (bursts, users) => (!bursts ? "" : users === 1 ? " own" : ` of ${users} streams`);
const hopRow = (port, number, hop, longest) => {
  const [lower, sender, bursts, users, higher, frame, latency, bound, stay, residence] = hop;
  const row = document.createElement("tr");
  const times = [higher, frame, latency].map((ps) => cellOf(up(ps), "n"));
  const first = cellOf(up(lower) + (sender === "-" ? "" : ` ${sender}`), "n");
  const second = cellOf(up(bursts) + whose(bursts, users), "n");
  const over = stay > residence ? "n late" : "n";
  const last = stay === undefined ? cellOf("-", "n") : cellOf(`${up(stay)} of ${down(residence)}`, over);
  const parts = partsOf([lower, bursts, higher, frame, latency], longest);
  const whole = cellOf(up(bound), "n");
  row.append(cellOf(data.ports[port]), cellOf(number), whole, parts, first, second, ...times, last);
  return row;
};
const showHops = (number) => {
  const place = one("#chosen");
  if (!place) return;
  place.replaceChildren();
  const classes = data?.classes[number];
  if (!classes || one(`#h${number}`)) return;
  const numbers = data.ways[number].map((_, k) => classes[k] ?? classes[0]);
  const hops = data.ways[number].map((port, k) => data.rows[`${port}:${numbers[k]}`]);
  const longest = Math.max(...hops.map((hop) => hop[7]));
  const table = one("#hops table").cloneNode(false);
  const body = document.createElement("tbody");
  body.append(...hops.map((hop, k) => hopRow(data.ways[number][k], numbers[k], hop, longest)));
  table.append(one("#hops thead").cloneNode(true), body);
  const frame = document.createElement("div");
  frame.className = "wide";
  frame.append(table);
  const name = document.createElement("p");
  name.textContent = one(`#route option[value="${number}"]`).textContent;
  place.append(name, frame);
};

// Routes: the one that is chosen stays, the one that is pointed at is shown meanwhile.
const choice = one("#route");
const told = one("#told");
const waysOf = () => (choice?.value ? [choice.value] : []);
const columnOf = (row, name) => {
  const heads = [...row.closest("table").tHead.rows[0].cells];
  return row.cells[heads.findIndex((head) => head.textContent === name)].textContent;
};
const tell = (number) => {
  const row = one(`tr[data-r="${number}"]`);
  const name = row && one("a", row).textContent;
  told.textContent = row ? `${name}: ${columnOf(row, "from, to")}, class ${columnOf(row, "class")}` : "";
};
const showRoutes = (numbers) => {
  all(".r.on, tr.on").forEach((it) => it.classList.remove("on"));
  numbers.forEach((number) => {
    routeOf(number)?.classList.add("on");
    one(`tr[data-r="${number}"]`)?.classList.add("on");
  });
};
const choose = (number) => {
  choice.value = number;
  showRoutes(waysOf());
  showHops(number);
  tell(number);
};
if (choice) {
  choice.addEventListener("change", () => choose(choice.value));
  all("a.way").forEach((link) =>
    link.addEventListener("click", (event) => {
      event.preventDefault();
      const number = link.closest("[data-r]").dataset.r;
      choose(number);
      const details = one(`#h${number}`);
      if (link.closest("details")) one("#network").scrollIntoView();
      else if (details) details.open = true;
    }),
  );
  all("#streams tbody tr, #declared tbody tr, #flows tbody tr").forEach((row) => {
    row.addEventListener("mouseenter", () => showRoutes([row.dataset.r]));
    row.addEventListener("mouseleave", () => showRoutes(waysOf()));
    one("a", row).addEventListener("focus", () => showRoutes([row.dataset.r]));
    one("a", row).addEventListener("blur", () => showRoutes(waysOf()));
  });
  showRoutes(waysOf());
  tell(choice.value);
}
const openTarget = () => {
  const number = /^#[hr](\d+)$/.exec(location.hash)?.[1];
  if (choice && data && number) choose(number);
  const aim = location.hash.length > 1 && document.getElementById(location.hash.slice(1));
  if (aim && aim.tagName === "DETAILS") aim.open = true;
};
addEventListener("hashchange", openTarget);
openTarget();

// The drawing: its size, at first such that names are legible, and moving it by its own paper.
const LEGIBLE = 0.85;
const net = one("#net");
if (net) {
  const [, , width, height] = net.getAttribute("viewBox").split(" ").map(Number);
  const frame = net.parentElement;
  let size = 1;
  const draw = () => {
    net.setAttribute("width", width * size);
    net.setAttribute("height", height * size);
  };
  all("button[data-zoom]").forEach((button) =>
    button.addEventListener("click", () => {
      const by = Number(button.dataset.zoom);
      size = by ? Math.min(8, Math.max(0.05, size * by)) : Math.min(1, frame.clientWidth / width);
      draw();
    }),
  );
  if (width > frame.clientWidth) {
    size = Math.max(LEGIBLE, frame.clientWidth / width);
    draw();
    const way = one(".r.on", net);
    if (way) {
      const [there, here] = [way.getBoundingClientRect(), frame.getBoundingClientRect()];
      frame.scrollLeft = there.left - here.left - Math.max(8, (frame.clientWidth - there.width) / 2);
      frame.scrollTop = there.top - here.top - Math.max(8, (frame.clientHeight - there.height) / 2);
    }
  }
  frame.tabIndex = 0;
  frame.setAttribute("aria-label", "The drawing of the network");
}

// The timeline: the span that is seen is a part of the one that was drawn.
const run = one("#run");
if (run) {
  const svg = one("svg", run);
  const [, , whole, high] = svg.getAttribute("viewBox").split(" ").map(Number);
  const first = Number(run.dataset.first) / 1e6;
  const numbers = (box, ...keys) => keys.map((key) => Number(box.getAttribute(key)));
  const boxes = all("rect[data-n]", svg).map((box) => [box, ...numbers(box, "x", "width", "y")]);
  const crosses = all(".cross", run).map((cross) => [cross, (parseFloat(cross.style.left) / 100) * whole]);
  const over = one(".over", run);
  const times = one(".times", run);
  let from = 0;
  let span = whole;
  const put = (text, left, width, top) => {
    const label = document.createElement("span");
    label.textContent = text;
    label.style.cssText = `left:${left}%;` + (width ? `width:${width}%;top:${top}px` : "");
    return label;
  };
  const stepOf = (least) => {
    const power = 10 ** Math.floor(Math.log10(least));
    return [1, 2, 5, 10].find((k) => k * power >= least) * power;
  };
  const writeTimes = () => {
    const step = stepOf(span / 1000 / Math.max(2, times.clientWidth / 110));
    const places = Math.max(0, -Math.floor(Math.log10(step) + 1e-9));
    const begin = first + from / 1000;
    const labels = [];
    for (let at = Math.ceil(begin / step) * step; at < begin + span / 1000; at += step)
      labels.push(put(at.toFixed(places), ((at - begin) / (span / 1000)) * 100));
    times.replaceChildren(...labels);
  };
  // A box has its sender's name, or where that has no room the number of its frame.
  const nameIn = (box, width) => {
    const room = (width / span) * run.clientWidth - 6;
    return [box.dataset.n, box.dataset.f].find((name) => room > 6.8 * name.length) ?? "";
  };
  const writeNames = () => {
    const lane = Number(run.dataset.lane);
    const seen = boxes.filter(([, x, width]) => x < from + span && x + width > from);
    const labels = seen.map(([box, x, width, y]) => {
      const left = Math.max(x, from);
      const right = Math.min(x + width, from + span);
      const name = nameIn(box, right - left);
      const top = Math.floor(y / lane) * lane;
      const label = put(name, ((left - from) / span) * 100, ((right - left) / span) * 100, top);
      label.className = `t${/c(\d)/.exec(box.getAttribute("class"))[1]}`;
      return name && label;
    });
    crosses.forEach(([cross, at]) => (cross.style.left = `${((at - from) / span) * 100}%`));
    over.replaceChildren(...labels.filter(Boolean), ...crosses.map(([cross]) => cross));
  };
  const frameTold = one("#frame");
  const tellFrame = (aim) => {
    all(".chosen", run).forEach((it) => it.classList.remove("chosen"));
    const box = aim.closest("rect[data-n], .cross");
    box?.classList.add("chosen");
    frameTold.textContent = box ? box.title || one("title", box).textContent : frameTold.dataset.hint;
  };
  let chosenBox = -1;
  run.addEventListener("click", (event) => {
    tellFrame(event.target);
    chosenBox = boxes.findIndex(([box]) => box === event.target);
  });
  const step = (by) => {
    if (!boxes.length) return;
    chosenBox = chosenBox < 0 && by < 0 ? boxes.length - 1 : (chosenBox + by + boxes.length) % boxes.length;
    const [box, x, width] = boxes[chosenBox];
    if (x + width <= from || x >= from + span) see(x + width / 2 - span / 2, span);
    tellFrame(box);
  };
  const see = (start, length) => {
    span = Math.min(whole, Math.max(whole / 1e5, length));
    from = Math.min(whole - span, Math.max(0, start));
    svg.setAttribute("viewBox", `${from} 0 ${span} ${high}`);
    writeTimes();
    writeNames();
  };
  const zoom = (by, at = 0.5) => see(from + span * at * (1 - by), span * by);
  const acts = {
    in: () => zoom(0.5),
    out: () => zoom(2),
    back: () => see(from - span / 3, span),
    on: () => see(from + span / 3, span),
    all: () => see(0, whole),
    next: () => step(1),
    before: () => step(-1),
  };
  const moves = { ArrowLeft: "back", ArrowRight: "on", Home: "all", ".": "next", ",": "before" };
  const keys = { "+": "in", "=": "in", "-": "out", ...moves };
  all("button[data-run]").forEach((button) => button.addEventListener("click", acts[button.dataset.run]));
  run.addEventListener("keydown", (event) => {
    if (keys[event.key] && !event.ctrlKey) {
      event.preventDefault();
      acts[keys[event.key]]();
    }
  });
  run.addEventListener("wheel", (event) => {
    if (event.ctrlKey) {
      event.preventDefault();
      const box = run.getBoundingClientRect();
      zoom(event.deltaY > 0 ? 1.25 : 0.8, (event.clientX - box.left) / box.width);
    }
  }, { passive: false });
  let held = null;
  run.addEventListener("pointerdown", (event) => (held = [event.clientX, from]));
  addEventListener("pointerup", () => (held = null));
  run.addEventListener("pointermove", (event) => {
    if (held) see(held[1] - ((event.clientX - held[0]) / run.clientWidth) * span, span);
  });
  addEventListener("resize", () => see(from, span));
  see(0, whole);
}
