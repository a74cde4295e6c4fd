// The page begins as one that needs no script: the short table is put away, and the whole one is shown.

document.documentElement.classList.add("live");
element("filter").hidden = false;
element("filter").addEventListener("submit", (event) => event.preventDefault());
startTable();
startPicture();
startOne();
showAddress();
