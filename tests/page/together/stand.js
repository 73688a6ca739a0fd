// The tests with a stand-in for the module, in one process.
import { runBehind } from "../together.js";

runBehind("stand");
