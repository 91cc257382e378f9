// Is added to each page that `site serve` shows: reloads it after a build, and shows a fault of the site over it.
(() => {
  const script = document.currentScript;
  const own = new URL(".", script.src);
  // The server answers again within this time after it was begun anew.
  const patience = 2000;
  let stream = null;
  let panel = null;
  let alone = null;

  function element(name, text) {
    const made = document.createElement(name);
    made.textContent = text;
    return made;
  }

  function sentence(text) {
    return `${text.charAt(0).toUpperCase()}${text.slice(1)}.`;
  }

  function hide() {
    panel?.remove();
    panel = null;
  }

  // The panel has a tree of its own, so that neither its style nor the page's reaches into the other.
  function show(fault) {
    hide();
    panel = document.createElement("div");
    panel.id = "site-fault";
    const tree = panel.attachShadow({ mode: "open" });
    const style = document.createElement("link");
    style.rel = "stylesheet";
    style.href = new URL("fault.css", own);
    const box = document.createElement("section");
    box.setAttribute("role", "alert");
    // A sentence says what is wrong, and then what to do.
    const [wrong, ...remedies] = fault.sentence.split("; ");
    box.append(element("h2", sentence(wrong)));
    if (fault.file) {
      box.append(element("p", fault.line ? `${fault.file}, line ${fault.line}` : fault.file));
    }
    if (fault.text) {
      box.append(element("pre", fault.text));
    }
    box.append(element("p", [...remedies.map(sentence), "This page is from the last good build."].join(" ")));
    tree.append(style, box);
    document.documentElement.append(panel);
  }

  // The browser asks again by itself, but for errors that it takes for the end.
  function wait() {
    alone ??= setTimeout(() => {
      alone = null;
      show({ sentence: "the server has ended, or does not answer; start `site serve` again", file: "", text: "" });
      if (stream?.readyState === EventSource.CLOSED) {
        attend();
      }
    }, patience);
  }

  function listen() {
    stream = new EventSource(new URL("events", own));
    stream.onerror = wait;
    stream.onmessage = (event) => {
      clearTimeout(alone);
      alone = null;
      const state = JSON.parse(event.data);
      if (state.version !== script.dataset.version) {
        location.reload();
      } else if (state.fault) {
        show(state.fault);
      } else {
        hide();
      }
    };
  }

  // A browser has a few connections for one host, so a page that nobody sees holds none.
  function attend() {
    stream?.close();
    stream = null;
    clearTimeout(alone);
    alone = null;
    if (document.visibilityState === "visible") {
      listen();
    }
  }

  document.addEventListener("visibilitychange", attend);
  attend();
})();
