// Puts the parts of a page that are sent late into their places, as they come. docs/how-to/send-parts-late.md
document.cookie = "late=1; path=/; max-age=86400; samesite=lax; secure";
const put = (part) =>
  document.querySelector(`div[data-late="${part.dataset.late}"]`)?.replaceChildren(part.content.cloneNode(true));
const follow = (part) => {
  put(part);
  new MutationObserver(() => put(part)).observe(part.content, { childList: true, characterData: true, subtree: true });
};
const find = (nodes) => nodes.forEach((it) => it.matches?.("template[data-late]") && follow(it));
new MutationObserver((seen) => seen.forEach((it) => find(it.addedNodes))).observe(document, { childList: true, subtree: true });
find(document.querySelectorAll("template[data-late]"));
