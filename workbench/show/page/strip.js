/* The pictures of all steps on one sheet, for paper: light, whatever the page is. */
"use strict";

report.SHEET = { most: 20, width: 480, height: 340, line: 20, gap: 14, font: '15px "DejaVu Sans", system-ui, sans-serif' };

/* The steps that share a picture: each has its own, or where they are many, those that follow along one direction. */
report.pictured = function (steps) {
  const found = [];
  steps.forEach((step, k) => {
    const last = found[found.length - 1];
    const goesOn = last && steps.length > report.SHEET.most && String(step.along) === String(last.some[0].along);
    if (goesOn) last.some.push(step);
    else found.push({ first: k, some: [step] });
  });
  return found;
};

/* What is drawn in each picture: a time, the look of the parts, the parts that are marked, and the words below. */
report.frames = function () {
  const { steps, groups, parts } = report.data;
  const shown = parts.map(() => "shown");
  const goer = (step) => step.words.moved + (step.moved.length > 1 ? " together" : "");
  const frames = [{ time: 0, looks: report.looks(shown, null, []), marked: [], words: report.data.title }];
  for (const { first, some } of report.pictured(steps)) {
    const marked = some.flatMap((step) => step.moved);
    const looks = report.looks(shown, null, marked);
    const last = first + some.length;
    const words = some.length === 1 ? `${last}. ${report.words.said(some[0])}`
      : `${first + 1} to ${last}. One after another along ${report.words.way(some[0].along)}: ${some.map(goer).join("; ")}`;
    frames.push({ time: last, looks, marked, words });
  }
  for (const part of groups.flatMap((group) => group.parts)) {
    const looks = parts.map((_, other) => (other === part ? "shown" : "clear"));
    frames.push({ time: steps.length, looks, marked: [], words: parts[part].name });
  }
  return frames;
};

/* Words in lines that are not wider than the picture, at most four. */
report.wrapped = function (pen, words, width) {
  const lines = [""];
  for (const word of words.split(" ")) {
    const longer = lines[lines.length - 1] ? lines[lines.length - 1] + " " + word : word;
    if (pen.measureText(longer).width <= width || !lines[lines.length - 1]) lines[lines.length - 1] = longer;
    else lines.push(word);
  }
  return lines.length > 4 ? [...lines.slice(0, 3), lines[3].replace(/[ ,]*\S*$/, " \u2026")] : lines;
};

/* Numbers and names of the parts with their colours, in columns, from a height on; the height of all of them. */
report.legend = function (pen, width, top) {
  const columns = Math.max(1, Math.floor(width / 240));
  report.data.parts.forEach((part, k) => {
    const x = 12 + (k % columns) * (width / columns);
    const y = top + 24 * Math.floor(k / columns);
    pen.fillStyle = part.colour;
    pen.fillRect(x, y, 14, 14);
    pen.strokeStyle = "#23282e";
    pen.strokeRect(x + 0.5, y + 0.5, 13, 13);
    pen.fillStyle = "#1d2126";
    pen.fillText(`${k} ${part.name}`, x + 21, y + 12, width / columns - 40);
  });
  return 24 * Math.ceil(report.data.parts.length / columns);
};

/* A canvas that is large enough for so many pictures, and how they stand on it. */
report.paper = function (frames) {
  const { width, height, line, gap, font } = report.SHEET;
  const columns = frames.length === 4 ? 2 : Math.min(3, frames.length);
  const sheet = document.createElement("canvas");
  const pen = sheet.getContext("2d");
  pen.font = font;
  const words = frames.map((frame) => report.wrapped(pen, frame.words, width - 8));
  const tall = height + 10 + line * Math.max(...words.map((lines) => lines.length));
  const top = Math.ceil(frames.length / columns) * (tall + gap) + gap;
  sheet.width = columns * width + (columns + 1) * gap;
  sheet.height = top + 24 * Math.ceil(report.data.parts.length / Math.floor(sheet.width / 240)) + gap;
  pen.fillStyle = "#ffffff";
  pen.fillRect(0, 0, sheet.width, sheet.height);
  pen.font = font;
  const corner = (k) => [gap + (k % columns) * (width + gap), gap + Math.floor(k / columns) * (tall + gap)];
  return { sheet, pen, words, top, corner };
};

/* The sheet, as a canvas. */
report.strip = function () {
  const { width, height, line } = report.SHEET;
  const { scene, state } = report;
  const frames = report.frames();
  const { sheet, pen, words, top, corner } = report.paper(frames);
  const kept = scene.leave(width, height);
  frames.forEach((frame, k) => {
    const [x, y] = corner(k);
    scene.dress(frame.looks, new Map(), new Set(frame.marked), report.LIGHT);
    scene.go(frame.time);
    scene.render();
    pen.drawImage(scene.canvas, x, y, width, height);
    pen.strokeStyle = "#d5dae0";
    pen.strokeRect(x + 0.5, y + 0.5, width - 1, height - 1);
    pen.fillStyle = "#1d2126";
    words[k].forEach((text, row) => pen.fillText(text, x + 4, y + height + 19 + line * row));
  });
  report.legend(pen, sheet.width, top);
  scene.come(kept);
  report.restore(state.time);
  return sheet;
};
