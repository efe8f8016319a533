// What this browser keeps of a seat between two visits: names of macros, and doors. Never keys.

/** A value under a name, for a seat; a browser that keeps nothing gives null. */
export function kept(name, seat) {
  const key = `nafisowe ${name} ${seat}`;
  return {
    read() {
      try {
        return JSON.parse(localStorage.getItem(key));
      } catch {
        return null;
      }
    },
    write(value) {
      try {
        localStorage.setItem(key, JSON.stringify(value));
      } catch {
        // it is as if it had never been written
      }
    },
  };
}
