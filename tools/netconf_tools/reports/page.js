// Shows of the views the rows that a search asks for: words are looked for in the names of agents and nodes, and a number
// among the addresses of the agent and those of the nodes to which they come.
"use strict";
(() => {
  const box = document.getElementById("search");
  const count = document.getElementById("found");
  const views = Array.from(document.querySelectorAll("section.view"));
  const isNumber = (word) => /^(0x[0-9a-f]{1,16}|[0-9]{1,20})$/i.test(word);
  const holds = (span, number) => {
    const [first, last] = span.split("-").map(BigInt);
    return first <= number && number <= last;
  };

  const rowFits = (row, agents, words, numbers) => {
    const names = agents + " " + row.dataset.nodes.toLowerCase();
    const spans = row.dataset.spans.split(" ");
    return words.every((word) => names.includes(word)) && numbers.every((number) => spans.some((span) => holds(span, number)));
  };

  const show = () => {
    const asked = box.value.toLowerCase().split(/\s+/).filter(Boolean);
    const words = asked.filter((word) => !isNumber(word));
    const numbers = asked.filter(isNumber).map(BigInt);
    let found = 0;
    for (const view of views) {
      const agents = view.dataset.agents.toLowerCase();
      let here = 0;
      for (const row of view.querySelectorAll("tr[data-spans]")) {
        row.hidden = !rowFits(row, agents, words, numbers);
        here += row.hidden ? 0 : 1;
      }
      view.hidden = asked.length > 0 && here === 0;
      found += here;
    }
    count.textContent = `${found} ${found === 1 ? "row" : "rows"}`;
  };

  const fromAddress = () => {
    const hit = /^#q=(.*)$/.exec(location.hash);
    if (hit) {
      box.value = decodeURIComponent(hit[1]);
      show();
    }
  };

  const openTarget = () => {
    const target = location.hash.startsWith("#q=") ? null : document.getElementById(decodeURIComponent(location.hash.slice(1)));
    const closed = target && target.closest("details:not([open])");
    if (closed) {
      closed.open = true;
      target.scrollIntoView();
    }
  };

  box.addEventListener("input", show);
  window.addEventListener("hashchange", () => { fromAddress(); openTarget(); });
  show();
  fromAddress();
  openTarget();
})();
