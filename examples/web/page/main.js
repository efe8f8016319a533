// Where the page begins.
import { Table } from "./table.js";

export const table = new Table();
