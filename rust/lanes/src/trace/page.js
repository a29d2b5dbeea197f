"use strict";
(function () {
  var data = JSON.parse(document.getElementById("data").textContent);
  var steps = data.steps, variables = data.variables;
  var slider = document.getElementById("slider"), place = document.getElementById("lanes");
  var lanes = variables.reduce(function (most, v) { return Math.max(most, v.values.length); }, 1);
  // So many lanes stand side by side; more stand in bands below one another.
  var side = 16;

  // The values after so many of the shown steps.
  function state(count) {
    var values = variables.map(function (v) { return v.values.slice(); });
    steps.slice(0, count).forEach(function (step) {
      (step.writes || []).forEach(function (write) { values[step.target][write[0]] = write[1]; });
    });
    return values;
  }

  // Whether the mask of a step leaves this lane of something so long out.
  function masked(step, length, lane) {
    return step !== undefined && step.mask.length > 1 && length === step.mask.length && !step.mask[lane];
  }

  function cell(row, tag, text, style) {
    var made = document.createElement(tag);
    made.textContent = text;
    if (style) { made.className = style; }
    row.appendChild(made);
    return made;
  }

  // The numbers of the lanes from this one on.
  function head(first) {
    var part = document.createElement("thead"), row = document.createElement("tr");
    cell(row, "th", "lane");
    for (var lane = first; lane < Math.min(lanes, first + side); lane++) { cell(row, "th", lane); }
    part.appendChild(row);
    return part;
  }

  // One row of the lanes from this one on: a label, and for each lane a text and how it looks.
  function line(body, first, label, kind, length, text, style) {
    if (first > 0 && length <= first) { return; }
    var row = document.createElement("tr"), name = cell(row, "th", label + " ");
    cell(name, "small", kind);
    for (var lane = first; lane < Math.min(lanes, first + side); lane++) {
      if (lane < length) { cell(row, "td", text(lane), style(lane)); } else { cell(row, "td", ""); }
    }
    body.appendChild(row);
  }

  // The condition's lanes, or the mask; one lane alone means that all are on.
  function testLine(body, first, step) {
    var length = step && step.test ? step.test.length : step && step.mask.length > 1 ? step.mask.length : lanes;
    line(body, first, step && step.test ? "condition" : "mask", "", length, function (lane) {
      if (step === undefined || masked(step, length, lane)) { return ""; }
      return step.test ? (step.test[lane] ? "yes" : "no") : "on";
    }, function (lane) { return masked(step, length, lane) ? "off" : ""; });
  }

  function variableLine(body, first, number, step, before, after) {
    var v = variables[number], writes = step && step.target === number ? step.writes : [];
    line(body, first, v.name, v.kind, v.values.length, function (lane) { return after[number][lane]; }, function (lane) {
      var written = writes.some(function (write) { return write[0] === lane; });
      if (written) { return before[number][lane] === after[number][lane] ? "written" : "written changed"; }
      return masked(step, v.values.length, lane) ? "off" : "";
    });
  }

  // Shows the memory after so many of the steps, and marks the last of them.
  function show(count) {
    var step = steps[count - 1], before = state(count - 1), after = state(count);
    bands.forEach(function (table, band) {
      var first = band * side, body = document.createElement("tbody");
      testLine(body, first, step);
      variables.forEach(function (_, number) { variableLine(body, first, number, step, before, after); });
      table.replaceChildren(head(first), body);
    });
    Array.prototype.forEach.call(document.querySelectorAll("#routine .on"), function (old) { old.className = ""; });
    if (step) {
      var marked = document.getElementById("s" + step.s);
      marked.className = "on";
      marked.scrollIntoView({ block: "nearest" });
    }
    var first = steps.length ? steps[0].n - 1 : 0;
    document.getElementById("now").textContent = step ? "step " + step.n + " at " + step.at : first ? "after step " + first : "before the first step";
    document.getElementById("back").disabled = count === 0;
    document.getElementById("on").disabled = count === steps.length;
    slider.value = count;
  }

  // A table for each band, the columns of all equally wide where there are several.
  var bands = [];
  for (var first = 0; first < lanes; first += side) {
    bands.push(document.createElement("table"));
    place.appendChild(bands[bands.length - 1]);
  }
  if (bands.length > 1) { place.className = "bands"; }

  function move(by) { show(Math.min(steps.length, Math.max(0, Number(slider.value) + by))); }
  slider.addEventListener("input", function () { show(Number(slider.value)); });
  document.getElementById("back").addEventListener("click", function () { move(-1); });
  document.getElementById("on").addEventListener("click", function () { move(1); });
  show(0);
})();
