// A WebSocket to the gateway that handed out this page.

const BROKEN = 1006; // the close code where no close was said

export class Connection {
  /**
   * @param {object} heed
   * @param {function(): void} heed.opened
   * @param {function(string): void} heed.came is given each line
   * @param {function(string): void} heed.closed is given why
   */
  constructor({ opened, came, closed }) {
    const scheme = location.protocol === "https:" ? "wss" : "ws";
    this.socket = new WebSocket(`${scheme}://${location.host}/table`);
    this.socket.onopen = opened;
    this.socket.onmessage = ({ data }) => came(data);
    this.socket.onclose = ({ code, reason }) => closed(reason || reasonOf(code));
  }

  get isOpen() {
    return this.socket.readyState === WebSocket.OPEN;
  }

  send(line) {
    this.socket.send(line);
  }

  close() {
    this.socket.close();
  }
}

function reasonOf(code) {
  return code === BROKEN ? "the connection broke" : `the connection was closed (${code})`;
}
