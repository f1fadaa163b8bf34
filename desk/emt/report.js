// The waveforms of the report: two charts of the listing's numbers, zoomed together and read off with the cursor.
"use strict";
(function () {
    const data = JSON.parse(document.getElementById("data").textContent);
    const colours = ["#0060a8", "#c8391e", "#1b8a4b", "#8a4fb0", "#b07a00", "#00868a", "#a83268", "#4d4d4d"];
    const charts = [];
    let moving = false;

    // a number of the listing in the chart's unit: one division by a power of ten
    const scaled = (number, places) => number / Math.pow(10, places);
    const shown = (number) => Number(number.toPrecision(10)).toString();
    const timeOf = (row) => scaled(data.steps[row] * data.step, data.time.places);

    function rowsOf(chart) {
        return data.steps.map((step, row) => [timeOf(row)].concat(chart.curves.map((curve) => scaled(curve.values[row], chart.places))));
    }

    function follow(from) { // the other chart gets the same window of time
        if (moving) return;
        moving = true;
        for (const other of charts) if (other !== from) other.updateOptions({ dateWindow: from.xAxisRange() });
        moving = false;
    }

    function put(chart, kind, words, colour) {
        const piece = document.createElement(kind);
        piece.textContent = words;
        if (colour) piece.style.color = colour;
        chart.read.append(piece);
    }

    function readOff(chart, row) {
        chart.read.replaceChildren();
        put(chart, "b", shown(timeOf(row)) + " " + data.time.unit);
        put(chart, "span", ", step " + data.steps[row]);
        chart.curves.forEach((curve, place) => {
            if (!curve.visible) return;
            put(chart, "span", "; ");
            put(chart, "span", curve.label, colours[place % colours.length]);
            put(chart, "span", " " + shown(scaled(curve.values[row], chart.places)) + " " + chart.unit);
        });
    }

    function choices(chart, graph) {
        chart.curves.forEach((curve, place) => {
            const label = document.createElement("label"), box = document.createElement("input"), swatch = document.createElement("span");
            box.type = "checkbox";
            box.checked = curve.visible;
            box.addEventListener("change", () => { curve.visible = box.checked; graph.setVisibility(place, box.checked); });
            swatch.className = "swatch";
            swatch.style.borderTopColor = colours[place % colours.length];
            if (place >= colours.length) swatch.style.borderTopStyle = "dashed";
            label.append(box, swatch, curve.label);
            chart.choose.append(label);
        });
    }

    function draw(chart) {
        const place = document.getElementById(chart.id);
        chart.read = document.getElementById(chart.id + "-read");
        chart.choose = document.getElementById(chart.id + "-choose");
        const series = {};
        chart.curves.forEach((curve, at) => { if (at >= colours.length) series[curve.label] = { strokePattern: [7, 3] }; });
        const graph = new Dygraph(place, rowsOf(chart), {
            labels: ["time"].concat(chart.curves.map((curve) => curve.label)),
            colors: chart.curves.map((_, at) => colours[at % colours.length]),
            series: series,
            visibility: chart.curves.map((curve) => curve.visible),
            xlabel: "time, " + data.time.unit, ylabel: chart.name + ", " + chart.unit,
            legend: "never", strokeWidth: 1.5, includeZero: true, animatedZooms: false, highlightCircleSize: 3,
            axes: { x: { drawGrid: true }, y: { axisLabelWidth: 70 } },
            highlightCallback: (event, x, points, row) => readOff(chart, row),
            drawCallback: (drawn, first) => { if (!first) follow(drawn); },
        });
        charts.push(graph);
        choices(chart, graph);
        if (data.steps.length) readOff(chart, data.steps.length - 1);
    }

    data.charts.forEach(draw);
    const whole = document.getElementById("whole");
    if (whole) whole.addEventListener("click", () => { for (const chart of charts) chart.resetZoom(); });
    window.emtCharts = charts; // for programs that look at the page
})();
