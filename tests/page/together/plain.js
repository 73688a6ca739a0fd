// The tests that need nothing of a browser, in one process.
import { runBehind } from "../together.js";

runBehind("");
