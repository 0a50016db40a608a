// The page: a point that one moves, and what the chosen notion says of it. Payoffs and weights are exact, places on the picture aren't.
(() => {
  const STEPS = 10; // with shift
  const NEAR = 8; // from a corner or a line, in the picture's units, at which the point lies on it
  const PARTS = 100n; // of a line, on which the point lies
  const LONG = 6; // fractions with more signs have their decimals with them
  const PAYOFF = /^[-+\u2212]?\d+(\.\d*)?$|^[-+\u2212]?\d+\/0*[1-9]\d*$/;
  const KEYS = { ArrowLeft: [0, -1], ArrowRight: [0, 1], ArrowDown: [1, -1], ArrowUp: [1, 1] };

  const element = (id) => document.getElementById(id);
  const data = JSON.parse(element("data").textContent);
  const axes = data.axes.map(loadedAxis);
  const notions = Object.fromEntries(Object.entries(data.notions).map(([notion, corners]) => [notion, corners.map(loadedCorner)]));
  const svg = document.querySelector("figure svg");
  const handle = element("point");
  const area = element("area");
  const frame = ["x", "y", "width", "height"].map((name) => Number(area.getAttribute(name)));
  const fields = [...document.querySelectorAll("#payoffs input")];
  const state = { notion: document.querySelector("input[name=notion]:checked").value, point: null };

  function loadedAxis({ least, step, lowest, highest, start, unit }) {
    return { least: Exact.parsed(least), step: Exact.parsed(step), lowest: BigInt(lowest), highest: BigInt(highest), start, unit };
  }

  function loadedCorner(corner) {
    return { ...corner, point: corner.point.map(Exact.parsed) };
  }

  const points = () => notions[state.notion].map(({ point }) => point);
  const pointText = (point) => `(${point.map(Exact.written).join(", ")})`;

  // Elements

  function made(kind, text = "", name = "") {
    const one = document.createElement(kind);
    one.textContent = text;
    one.className = name;
    return one;
  }

  function around(kind, parts, name = "") {
    const one = made(kind, "", name);
    one.append(...parts);
    return one;
  }

  function drawn(kind, attributes) {
    return marked(document.createElementNS(svg.namespaceURI, kind), attributes);
  }

  function marked(one, attributes) {
    Object.entries(attributes).forEach(([name, value]) => one.setAttribute(name, value));
    return one;
  }

  // Places on the picture

  const placeOf = (point) => axes.map(({ least, start, unit }, k) => start + Exact.approximate(Exact.difference(point[k], least)) * unit);
  const distance = (one, other) => Math.hypot(one[0] - other[0], one[1] - other[1]);
  const inFrame = (place) => place.map((value, k) => Math.min(Math.max(value, frame[k]), frame[k] + frame[k + 2]));

  function placeUnder(event) {
    const { x, y } = new DOMPoint(event.clientX, event.clientY).matrixTransform(svg.getScreenCTM().inverse());
    return [x, y];
  }

  // The point at a place: a corner or a point of a line that is near, or else the nearest one of the grid.
  function pointAt(place) {
    const near = points().find((point) => distance(placeOf(point), place) < NEAR);
    return near || pointOfLine(place) || axes.map((axis, k) => Exact.gridPayoff(axis, (place[k] - axis.start) / axis.unit));
  }

  function pointOfLine(place) {
    if (points().length !== 2) return null;
    const [start, end] = points().map(placeOf);
    const along = end.map((value, k) => value - start[k]);
    const part = along.reduce((sum, value, k) => sum + value * (place[k] - start[k]), 0) / distance(start, end) ** 2;
    const onLine = start.map((value, k) => value + part * along[k]);
    if (part < 0 || part > 1 || distance(onLine, place) > NEAR) return null;
    return pointBetween(...points(), Exact.fraction(BigInt(Math.round(part * Number(PARTS))), PARTS));
  }

  function pointBetween(start, end, part) {
    return start.map((payoff, k) => Exact.sum(payoff, Exact.product(part, Exact.difference(end[k], payoff))));
  }

  // What is shown of the point

  function show() {
    const mix = Exact.mixture(points(), state.point);
    const side = mix ? null : Exact.bounding(points(), state.point);
    showHandle(mix);
    showTies(mix || []);
    showSide(side);
    showWords(mix, side);
    showFields();
    element("result").hidden = !mix;
    if (mix) showDistribution(mix);
  }

  function showHandle(mix) {
    const place = inFrame(placeOf(state.point));
    const said = data.players.map((player, k) => `${player} ${Exact.written(state.point[k])}`).join(", ");
    const least = Exact.product(axes[0].step, Exact.fraction(axes[0].lowest));
    const greatest = Exact.product(axes[0].step, Exact.fraction(axes[0].highest));
    marked(handle, {
      transform: `translate(${place.join(" ")})`,
      class: mix ? "script reached" : "script",
      "aria-valuemin": Exact.approximate(least),
      "aria-valuemax": Exact.approximate(greatest),
      "aria-valuenow": Exact.approximate(state.point[0]),
      "aria-valuetext": `${said}, ${mix ? "reached" : "not reached"}`,
      "aria-label": `expected payoffs of ${data.players.join(" and ")}`,
    });
  }

  // A line to each corner of the mixture.
  function showTies(mix) {
    const start = placeOf(state.point);
    const ends = mix.map(({ corner }) => placeOf(points()[corner]));
    element("ties").replaceChildren(...ends.map((end) => drawn("line", { x1: start[0], y1: start[1], x2: end[0], y2: end[1] })));
  }

  function showSide(side) {
    const line = element("side");
    line.classList.toggle("hidden", !side);
    if (!side) return;
    const [x, y] = placeOf(side.corner);
    const [across, up] = [-Number(side.second) * axes[0].unit, Number(side.first) * axes[1].unit];
    const reach = (2 * Math.max(...frame)) / Math.hypot(across, up);
    marked(line, { x1: x - reach * across, y1: y - reach * up, x2: x + reach * across, y2: y + reach * up });
  }

  function showWords(mix, side) {
    const notion = state.notion.toUpperCase();
    const verdict = `${mix ? "An" : "No"} ${notion} reaches the point ${pointText(state.point)}.`;
    const bound = side ? [" ", made("span", sideInWords(side, notion))] : [];
    element("status").replaceChildren(made("strong", verdict), ...bound);
  }

  // The side as a sentence, with "at least" in place of "at most" where both numbers are below 0 otherwise.
  function sideInWords(side, notion) {
    const flipped = side.first <= 0n && side.second <= 0n;
    const signed = (value) => (flipped ? Exact.product(Exact.fraction(-1n), value) : value);
    const numbers = [side.first, side.second].map((number) => (flipped ? -number : number));
    const here = Exact.written(signed(Exact.amount(side, state.point)));
    const bound = `at ${flipped ? "least" : "most"} ${Exact.written(signed(side.bound))}`;
    return `In every ${notion}, ${sumInWords(numbers)} is ${bound}; here it is ${here}.`;
  }

  // Whole numbers times the payoffs, the first one above 0.
  function sumInWords(numbers) {
    const [first, second] = numbers[0] > 0n ? [0, 1] : [1, 0];
    const whole = `${times(numbers[first])}${data.players[first]}'s expected payoff`;
    if (!numbers[0] || !numbers[1]) return whole;
    const size = numbers[second] < 0n ? -numbers[second] : numbers[second];
    return `${whole} ${numbers[second] < 0n ? "minus" : "plus"} ${times(size)}${data.players[second]}'s`;
  }

  const times = (number) => (number === 1n ? "" : `${number} times `);

  function showFields() {
    fields.forEach((field, k) => {
      field.value = Exact.written(state.point[k]);
      field.removeAttribute("aria-invalid");
      field.nextElementSibling.textContent = field.value.includes("/") ? Exact.decimal(state.point[k]) : "";
    });
  }

  // The distribution

  function showDistribution(mix) {
    const lines = Exact.distribution(notions[state.notion], mix);
    document.querySelector("#distribution tbody").replaceChildren(...lines.map(lineOf));
    element("mixture").textContent = mixtureInWords(mix);
  }

  function lineOf({ weight, plans }) {
    const text = Exact.written(weight);
    const parts = [made("span", text, "weight")];
    if (text.length > LONG) parts.push(made("small", Exact.decimal(weight)));
    const bar = made("div", "", "bar");
    bar.style.width = `${100 * Exact.approximate(weight)}%`;
    const cells = plans.map((plan, player) => around("td", planParts(plan, player)));
    return around("tr", [around("td", [...parts, around("div", [bar], "track")]), ...cells]);
  }

  // The actions of a plan, at the sets to which it leads.
  function planParts(plan, player) {
    if (!plan.length) return [made("span", "never moves", "set")];
    const taken = plan.map((action, set) => [data.sets[player][set], action]).filter(([, action]) => action !== null);
    return taken.map(([set, action]) => around("div", [made("span", set.name, "set"), made("span", set.actions[action - 1], "action")]));
  }

  function mixtureInWords(mix) {
    if (mix.length === 1) return `It is that of corner ${mix[0].corner}.`;
    const parts = mix.map(({ corner, share }) => `${Exact.written(share)} of corner ${corner}`);
    return `Mixed: ${parts.slice(0, -1).join(", ")} and ${parts[parts.length - 1]}.`;
  }

  // What moves the point

  function moveTo(point) {
    state.point = point;
    show();
  }

  function onKey(event) {
    if (!(event.key in KEYS) || event.ctrlKey || event.altKey || event.metaKey) return;
    event.preventDefault();
    const [moved, direction] = KEYS[event.key];
    const steps = direction * (event.shiftKey ? STEPS : 1);
    moveTo(state.point.map((payoff, k) => (k === moved ? Exact.stepped(axes[k], payoff, steps) : payoff)));
  }

  // A finger drags the point alone, so that it can move the page from elsewhere on the picture.
  function onDown(event) {
    const onPoint = handle.contains(event.target);
    if (event.button !== 0 || (event.pointerType === "touch" && !onPoint)) return;
    event.preventDefault();
    svg.setPointerCapture(event.pointerId);
    handle.focus();
    svg.classList.add("dragged");
    if (!onPoint) moveTo(pointAt(placeUnder(event)));
  }

  function onMove(event) {
    if (svg.classList.contains("dragged")) moveTo(pointAt(inFrame(placeUnder(event))));
  }

  function onTap(event) {
    if (event.pointerType === "touch" && event.target === area) moveTo(pointAt(placeUnder(event)));
  }

  function onField(event) {
    const words = fields.map((field) => field.value.trim());
    fields.forEach((field, k) => field.setAttribute("aria-invalid", !PAYOFF.test(words[k])));
    if (words.every((word) => PAYOFF.test(word))) moveTo(words.map(typed));
  }

  // A payoff as one types it, a fraction or a decimal.
  function typed(word) {
    const plain = word.replace("\u2212", "-").replace("+", "");
    const [whole, places = ""] = plain.split(".");
    return Exact.parsed(plain.includes(".") ? `${whole}${places}/1${"0".repeat(places.length)}` : plain);
  }

  function onNotion(event) {
    state.notion = event.target.value;
    showNotion();
    show();
  }

  function showNotion() {
    document.querySelectorAll("table.corners").forEach((table) => (table.hidden = table.id !== `corners-${state.notion}`));
  }

  // Buttons in place of the corners' numbers.
  function addButtons(notion) {
    document.querySelectorAll(`#corners-${notion} tbody th`).forEach((cell, k) => {
      const { point } = notions[notion][k];
      const button = made("button", cell.textContent);
      marked(button, { type: "button", "aria-label": `go to ${cell.textContent}, ${pointText(point)}` });
      button.addEventListener("click", () => moveTo(point));
      cell.replaceChildren(button);
    });
  }

  // At first the point is amid the corners of the greatest polygon that is chosen.
  function firstPoint() {
    const share = Exact.fraction(1n, BigInt(points().length));
    const middle = axes.map((_, k) => Exact.product(share, points().map((point) => point[k]).reduce(Exact.sum)));
    const near = pointAt(placeOf(middle));
    return Exact.mixture(points(), near) ? near : points()[0];
  }

  function start() {
    document.documentElement.classList.add("live");
    Object.keys(notions).forEach(addButtons);
    handle.addEventListener("keydown", onKey);
    svg.addEventListener("pointerdown", onDown);
    svg.addEventListener("pointermove", onMove);
    svg.addEventListener("click", onTap);
    ["pointerup", "pointercancel"].forEach((name) => svg.addEventListener(name, () => svg.classList.remove("dragged")));
    fields.forEach((field) => field.addEventListener("change", onField));
    document.querySelectorAll("input[name=notion]").forEach((radio) => radio.addEventListener("change", onNotion));
    showNotion();
    moveTo(firstPoint());
  }

  start();
})();
