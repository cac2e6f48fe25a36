/* The page around the picture: steps, groups, parts, keys. */
"use strict";

(function () {
  const data = report.data;
  const many = data.steps.length;
  const PACE = 1100; /* milliseconds that a step takes */
  const SPOTS = 12; /* colours at most that stand before a step in the list */
  const find = (name) => document.getElementById(name);
  const AXES = ["x", "y", "z"];
  const manyPieces = data.parts.reduce((sum, part) => sum + part.pieces.length, 0);

  function element(kind, properties, ...children) {
    const made = Object.assign(document.createElement(kind), properties || {});
    made.append(...children);
    return made;
  }

  /* Names in a row, as words. */
  function listed(names) {
    return names.length < 2 ? names.join("") : names.slice(0, -1).join(", ") + " and " + names[names.length - 1];
  }

  const named = (parts) => listed(parts.map((part) => data.parts[part].name));

  /* A direction as one says it: +z for 0 0 1. */
  function way(direction) {
    const axes = direction.map((number, k) => [number, k]).filter(([number]) => number);
    if (axes.length === 1) return (axes[0][0] > 0 ? "+" : "\u2212") + AXES[axes[0][1]];
    return "(" + direction.map((number) => String(number).replace("-", "\u2212")).join(", ") + ")";
  }

  /* What the parts do that a step moves. */
  const does = (step) => `${step.moved.length === 1 ? "goes" : "go together"} along ${way(step.along)}, away from ${step.words.rest}`;

  /* What a step says. */
  const said = (step) => `${step.words.moved} ${does(step)}`;

  report.words = { way, said };

  const state = { time: 0, modes: data.parts.map(() => "shown"), hold: null, picked: null, running: 0 };
  const dark = matchMedia("(prefers-color-scheme: dark)");
  const still = matchMedia("(prefers-reduced-motion: reduce)");
  let scene = null;
  let controls = null;

  /* The parts that hold each other or overlap, where some do. */
  const overlap = data.overlap;
  const grouped = new Set([...data.groups.flatMap((group) => group.parts), ...(overlap ? [overlap.part, overlap.by] : [])]);

  /* The look of each part: as it was chosen; faint where others are to be seen, which are the pieces of a hold, or
     the groups and what a step moves. */
  report.looks = function (modes, hold, moved) {
    const isBeside = (part) => grouped.size && !grouped.has(part) && !moved.includes(part);
    return modes.map((mode, part) => (mode === "shown" && (hold || isBeside(part)) ? "clear" : mode));
  };

  report.lit = function (hold) {
    return new Map(hold ? [[hold.part, new Set([hold.piece])], [hold.by, new Set([hold.by_piece])]] : []);
  };

  let isAsked = false;
  function draw() {
    if (!scene || isAsked) return;
    isAsked = true;
    requestAnimationFrame(() => {
      isAsked = false;
      scene.render();
    });
  }

  function dress() {
    if (!scene) return;
    const step = data.steps[Math.ceil(state.time) - 1];
    const moved = step ? step.moved : [];
    const marked = new Set(state.picked === null ? moved : [...moved, state.picked]);
    scene.dress(report.looks(state.modes, state.hold, moved), report.lit(state.hold), marked, dark.matches ? report.DARK : report.LIGHT);
    scene.point(state.hold);
    draw();
  }

  /* Brings a line of the lists beside the picture into sight, where they scroll; the page itself stays. */
  function reveal(line) {
    const list = line.closest("aside");
    if (list.scrollHeight <= list.clientHeight + 1) return;
    const [box, frame] = [line.getBoundingClientRect(), list.getBoundingClientRect()];
    if (box.top < frame.top) list.scrollTop -= frame.top - box.top;
    else if (box.bottom > frame.bottom) list.scrollTop += box.bottom - frame.bottom;
  }

  /* The step at hand, in the lists and in words. */
  function tell() {
    const at = Math.ceil(state.time);
    const step = data.steps[at - 1];
    document.querySelectorAll("#steps button").forEach((button, k) => {
      if (k !== at) button.removeAttribute("aria-current");
      else if (!button.hasAttribute("aria-current")) {
        button.setAttribute("aria-current", "step");
        reveal(button);
      }
    });
    document.querySelectorAll("#parts li").forEach((row, part) => {
      row.classList.toggle("moved", Boolean(step) && step.moved.includes(part));
    });
    let words = "Together, as it is used.";
    if (step) words = `Step ${at} of ${many}: ${said(step)}.`;
    if (at === many && state.time === many && many) words += " This is the exploded view.";
    if (!many && data.groups.length) words = "No step takes these parts apart.";
    if (data.fault) words = "There is no plan: staat gives no answer for these pieces.";
    if (find("now").textContent !== words) find("now").textContent = words;
  }

  /* Goes to a time from 0, together, to the number of steps, apart. */
  function go(time) {
    state.time = Math.min(Math.max(time, 0), many);
    find("slider").value = state.time;
    find("slider").setAttribute("aria-valuetext", `step ${Math.ceil(state.time)} of ${many}`);
    if (scene) scene.go(state.time);
    tell();
    dress();
  }

  function stop() {
    state.running = 0;
    find("apart").textContent = "Take apart";
    find("together").textContent = "Put together";
  }

  /* Moves from where it is to a time, step by step. */
  function run(goal) {
    stop();
    if (still.matches && Math.abs(goal - state.time) <= 1) return go(goal);
    const turn = Math.sign(goal - state.time);
    if (!turn) return undefined;
    find(turn > 0 ? "apart" : "together").textContent = "Stop";
    const token = (state.running = performance.now() + Math.random());
    let last = performance.now();
    const tick = (now) => {
      if (state.running !== token) return;
      const next = state.time + (turn * Math.max(0, now - last)) / PACE;
      last = now;
      if ((goal - next) * turn <= 0) {
        go(goal);
        stop();
        return;
      }
      go(next);
      requestAnimationFrame(tick);
    };
    requestAnimationFrame(tick);
    return undefined;
  }

  const play = (goal) => (state.running ? stop() : run(goal));
  const onward = () => { stop(); go(Math.floor(state.time + 1e-6) + 1); };
  const backward = () => { stop(); go(Math.ceil(state.time - 1e-6) - 1); };

  function spot(part) {
    const made = element("span", { className: "spot" });
    made.style.background = data.parts[part].colour;
    return made;
  }

  function fillSteps() {
    if (!many) {
      find("travel").querySelector(".row").hidden = true;
      return;
    }
    find("steps").hidden = false;
    find("slider").max = many;
    const rows = [element("button", { type: "button" }, element("span", { className: "number" }, "0"), "together")];
    data.steps.forEach((step, k) => {
      const moved = step.moved.slice(0, SPOTS).map(spot);
      rows.push(element("button", { type: "button", title: `along ${step.along.join(" ")}` },
        element("span", { className: "number" }, String(k + 1)), ...moved, element("b", {}, step.words.moved), ` ${does(step)}`));
    });
    rows.forEach((button, k) => {
      button.addEventListener("click", () => (k === Math.ceil(state.time) - 1 || k === Math.ceil(state.time) + 1 ? run(k) : (stop(), go(k))));
      find("steps").querySelector("ol").append(element("li", {}, button));
    });
  }

  function choose(hold, button) {
    stop();
    state.hold = state.hold === hold ? null : hold;
    document.querySelectorAll("#holds button").forEach((other) => {
      other.setAttribute("aria-pressed", String(other === button && state.hold !== null));
    });
    dress();
  }

  /* A line that lights up two pieces. */
  function lineOf(hold, words) {
    const [part, by] = [data.parts[hold.part].name, data.parts[hold.by].name];
    const button = element("button", { type: "button" }, spot(hold.part), part, words, spot(hold.by), by);
    button.title = `piece ${hold.piece} of ${part} meets piece ${hold.by_piece} of ${by}`;
    button.setAttribute("aria-pressed", "false");
    button.addEventListener("click", () => choose(hold, button));
    return button;
  }

  function fillOverlap() {
    if (!overlap) return;
    find("holds").hidden = false;
    find("holds").querySelector("h2").textContent = "Parts overlap";
    find("holds").querySelector("p").textContent =
      "Parts may touch, but share no inner points. The line lights up the first two pieces that do.";
    find("holds").querySelector("div").append(lineOf(overlap, " overlaps "));
  }

  function fillHolds() {
    if (!data.groups.length) return;
    find("holds").hidden = false;
    find("holds").querySelector("p").textContent =
      "Along every direction each of these parts is held by the others. A line lights up the two pieces that meet; backwards the second part is held by the first.";
    for (const group of data.groups) {
      const directions = [...new Set(group.holds.map((hold) => hold.along.join(" ")))];
      find("holds").querySelector("div").append(element("h3", {}, group.words));
      for (const direction of directions) {
        const some = group.holds.filter((hold) => hold.along.join(" ") === direction);
        find("holds").querySelector("div").append(element("h3", {}, `Along ${way(some[0].along)}`));
        find("holds").querySelector("div").append(...some.map((hold) => lineOf(hold, " is held by ")));
      }
    }
  }

  function pick(part) {
    state.picked = state.picked === part ? null : part;
    document.querySelectorAll("#parts .name").forEach((button, number) => {
      button.setAttribute("aria-pressed", String(number === state.picked));
      if (number === state.picked) reveal(button);
    });
    dress();
  }

  function fillParts() {
    data.parts.forEach((told, part) => {
      const name = element("button", { type: "button", className: "name" }, spot(part), element("span", { className: "number" }, String(part)), told.name);
      name.setAttribute("aria-pressed", "false");
      name.addEventListener("click", () => pick(part));
      const switches = [["clear", "Clear"], ["hidden", "Hide"]].map(([mode, word]) => {
        const button = element("button", { type: "button" }, word);
        button.setAttribute("aria-label", `${word} ${told.name}`);
        button.setAttribute("aria-pressed", "false");
        button.addEventListener("click", () => {
          state.modes[part] = state.modes[part] === mode ? "shown" : mode;
          switches.forEach(([other, its]) => its.setAttribute("aria-pressed", String(state.modes[part] === other)));
          dress();
        });
        return [mode, button];
      });
      find("parts").querySelector("ul").append(element("li", {}, name, ...switches.map(([, button]) => button)));
    });
  }

  /* A bound in three digits, rounded upwards; the whole number stands in the title. */
  function rounded(length) {
    const unit = 10 ** (Math.floor(Math.log10(length)) - 2);
    return length ? String(Number((Math.ceil(length / unit - 1e-9) * unit).toPrecision(3))) : "0";
  }

  /* What was checked, and how near the pieces are to the model. */
  function fillFoot() {
    const made = { answer: `${data.parts.length} parts, ${manyPieces} pieces`, meaning: "cut from the model, which nothing proves: what they are worth follows from the bounds below" };
    const isMade = data.model && data.model.command;
    for (const check of [...(isMade ? [{ command: data.model.command, ...made }] : []), ...data.checks]) {
      find("checks").querySelector("tbody").append(element("tr", {}, element("td", {}, element("code", {}, check.command)),
        element("td", {}, check.answer), element("td", {}, check.meaning)));
    }
    const model = data.model;
    const NEAR = {
      over: "The pieces contain their parts: what comes apart as pieces comes apart.",
      under: "The pieces lie within their parts: what is stuck as pieces is stuck.",
      near: "Where a fit is tighter than these bounds, the answer for the model may differ.",
    };
    find("near").textContent = model
      ? `The pieces stand on a grid of ${model.grid}${model.unit ? " " + model.unit : ""}; the bounds are in the unit of the model. ${NEAR[model.side] || ""}`
      : "The pieces are the product: the part list names no model that they stand for.";
    if (!model) return;
    find("bounds").hidden = false;
    for (const row of data.bounds) {
      const lengths = [row.over, row.under].map((length) => element("td", { className: "length", title: String(length) }, rounded(length)));
      find("bounds").querySelector("tbody").append(element("tr", {}, element("td", { title: row.names }, row.name), element("td", {}, String(row.pieces)), ...lengths));
    }
  }

  function fillHead() {
    const size = `${data.parts.length} parts, ${manyPieces} pieces`;
    const held = data.groups.map(({ parts }) => (parts.length > 4 ? `${parts.length} parts` : named(parts))).join("; ");
    const steps = many === 1 ? "one step" : `${many} steps`;
    let words = `${size}; comes apart in ${steps}, and backwards they put it together`;
    if (data.groups.length) words = `${size}; ${many ? `comes apart in ${steps} but for groups that hold each other: ${held}` : `${held} hold each other and are stuck`}`;
    if (data.fault) words = `${size}; no plan: ${overlap ? `${named([overlap.part, overlap.by])} overlap` : data.fault}`;
    find("answer").textContent = words;
  }

  /* The eye: the mouse, fingers and keys turn it. */
  function watch() {
    controls = new THREE.OrbitControls(scene.camera, scene.canvas);
    controls.enableKeys = false;
    controls.target = scene.target;
    let lastDistance = 0;
    controls.addEventListener("start", () => (lastDistance = scene.camera.position.distanceTo(scene.target)));
    const before = new THREE.Vector3();
    controls.addEventListener("change", () => {
      const distance = scene.camera.position.distanceTo(scene.target);
      const isMoved = before.distanceTo(scene.target) > 1e-6 * distance && lastDistance > 0;
      if ((lastDistance && Math.abs(distance - lastDistance) > 1e-6 * distance) || isMoved) scene.isFitted = false;
      draw();
    });
    controls.addEventListener("start", () => before.copy(scene.target));
    controls.addEventListener("end", () => (lastDistance = 0));
    find("whole").addEventListener("click", whole);
    scene.canvas.addEventListener("keydown", turn);
    let down = null;
    scene.canvas.addEventListener("mousedown", (event) => (down = [event.clientX, event.clientY]));
    scene.canvas.addEventListener("click", (event) => {
      if (down && Math.hypot(event.clientX - down[0], event.clientY - down[1]) > 4) return;
      const found = under(event);
      if (found) pick(found.part);
      else if (state.picked !== null) pick(state.picked);
    });
    scene.canvas.addEventListener("mousemove", hover);
    scene.canvas.addEventListener("mouseleave", () => (find("tip").hidden = true));
  }

  function under(event) {
    const box = scene.canvas.getBoundingClientRect();
    return scene.pick(((event.clientX - box.left) / box.width) * 2 - 1, 1 - ((event.clientY - box.top) / box.height) * 2);
  }

  function hover(event) {
    const found = event.buttons ? null : under(event);
    const tip = find("tip");
    tip.hidden = !found;
    if (!found) return;
    const box = scene.canvas.getBoundingClientRect();
    tip.textContent = data.parts[found.part].name;
    tip.style.left = Math.min(event.clientX - box.left + 14, box.width - tip.offsetWidth - 4) + "px";
    tip.style.top = Math.max(event.clientY - box.top - 26, 2) + "px";
  }

  function whole() {
    scene.isFitted = true;
    scene.camera.position.copy(scene.target).add(new THREE.Vector3(...data.view));
    scene.fit();
    draw();
  }

  const TURNS = { ArrowLeft: [-1, 0], ArrowRight: [1, 0], ArrowUp: [0, -1], ArrowDown: [0, 1] };

  /* Keys in the picture: arrows turn it by seven degrees and a half, plus and minus zoom. */
  function turn(event) {
    const off = scene.camera.position.clone().sub(scene.target);
    const ball = new THREE.Spherical().setFromVector3(new THREE.Vector3(off.x, off.z, -off.y));
    if (TURNS[event.key]) {
      ball.theta += (TURNS[event.key][0] * Math.PI) / 24;
      ball.phi = Math.min(Math.max(ball.phi + (TURNS[event.key][1] * Math.PI) / 24, 0.02), Math.PI - 0.02);
    } else if ("+-=".includes(event.key)) {
      ball.radius *= event.key === "-" ? 1.15 : 1 / 1.15;
      scene.isFitted = false;
    } else return;
    const now = new THREE.Vector3().setFromSpherical(ball);
    scene.camera.position.copy(scene.target).add(new THREE.Vector3(now.x, -now.z, now.y));
    scene.camera.lookAt(scene.target);
    event.preventDefault();
    event.stopPropagation();
    draw();
  }

  /* Keys of the page; a button that has the focus keeps the space. */
  function press(event) {
    if (event.ctrlKey || event.metaKey || event.altKey) return;
    const keys = { ArrowRight: onward, ArrowLeft: backward, Home: () => { stop(); go(0); }, End: () => { stop(); go(many); }, f: () => scene && whole() };
    if (event.target === find("slider")) Object.assign(keys, { ArrowUp: onward, ArrowDown: backward });
    if (event.key === " " && event.target.tagName !== "BUTTON") keys[" "] = () => play(state.time < many ? many : 0);
    const act = keys[event.key];
    if (!act || (!many && event.key !== "f")) return;
    event.preventDefault();
    act();
  }

  function listen() {
    find("slider").addEventListener("input", () => { stop(); go(Number(find("slider").value)); });
    find("first").addEventListener("click", () => { stop(); go(0); });
    find("last").addEventListener("click", () => { stop(); go(many); });
    find("before").addEventListener("click", backward);
    find("after").addEventListener("click", onward);
    find("apart").addEventListener("click", () => play(many));
    find("together").addEventListener("click", () => play(0));
    document.addEventListener("keydown", press);
    dark.addEventListener("change", dress);
    addEventListener("beforeprint", () => find("paper").replaceChildren(scene ? report.strip() : ""));
  }

  function resize() {
    const { clientWidth, clientHeight } = find("frame");
    scene.resize(clientWidth, clientHeight, window.devicePixelRatio || 1);
    draw();
  }

  fillHead();
  fillSteps();
  fillHolds();
  fillOverlap();
  fillParts();
  fillFoot();
  listen();
  try {
    scene = new report.Scene(find("view"), data);
  } catch (fault) {
    find("frame").replaceChildren(element("p", { className: "keys" }, "This browser does not draw in three dimensions (WebGL)."));
  }
  if (scene) {
    scene.prepare(1, 1);
    scene.fit();
    resize();
    watch();
    new ResizeObserver(resize).observe(find("frame"));
  }
  go(0);
  Object.assign(report, { scene, go, state, places: () => scene.read(), restore: () => { resize(); go(state.time); } });
})();
