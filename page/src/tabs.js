// Tabs: a click or an arrow key chooses one, and the others are left out of the way of the Tab key.
/** @type {Record<string, number>} */
const BY = {ArrowRight: 1, ArrowLeft: -1};
/** @type {(list: Element) => HTMLElement[]} */
const tabsOf = list => [.../** @type {NodeListOf<HTMLElement>} */ (list.querySelectorAll("[role=tab]"))];
/** @type {(list: Element, choose: (tab: HTMLElement) => any) => void} */
export function takeTabs(list, choose) {
  const tabs = tabsOf(list);
  /** @param {HTMLElement} it */
  const take = it => {
    markTab(list, it);
    choose(it);
  };
  for (const it of tabs) {
    it.addEventListener("click", () => take(it));
    it.addEventListener("keydown", event => {
      const by = BY[event.key];
      if (!by) return;
      event.preventDefault();
      event.stopPropagation();
      const other = tabs[(tabs.indexOf(it) + by + tabs.length) % tabs.length];
      take(other);
      other.focus();
    });
  }
}
/** @type {(list: Element, chosen: Element) => void} */
export function markTab(list, chosen) {
  for (const it of tabsOf(list)) {
    it.setAttribute("aria-selected", it === chosen);
    it.tabIndex = it === chosen ? 0 : -1;
  }
}
