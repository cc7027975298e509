// Unpacks the recordings and puts them on the page.

function newStage() {
  const root = document.getElementById("stage").content.firstElementChild.cloneNode(true);
  document.getElementById("stages").append(root);
  return root;
}

async function start() {
  const packed = JSON.parse(document.getElementById("recordings").textContent);
  const made = await Promise.all(packed.map(unpacked));
  document.body.classList.toggle("two", made.length > 1);
  const stages = made.map(({ recording, courses }) => new Stage(recording, courses, newStage()));
  const filters = new Filters();
  const controls = new Controls(stages, filters);
  stages.forEach((stage) => stage.view.resize(stage.root.clientWidth));
  controls.refresh();
  if (stages.length > 1) {
    new Differences(stages, document.getElementById("differences"));
    controls.refresh();
  }
  stages.forEach((stage) => {
    const others = stage.moved;
    stage.moved = (moved) => {
      others(moved);
      controls.writeAddress();
    };
  });
  document.title = "friday: " + made[0].recording.processes.map((process) => process.name).join(", ");
  controls.readAddress(location.hash);
  // How many milliseconds the opening took.
  document.body.dataset.ready = Math.round(performance.now());
}

start().catch((error) => {
  document.getElementById("failed").textContent = "This page cannot be shown: " + error;
});
