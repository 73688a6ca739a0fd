// The tests with a stand-in for a document, in one process.
import { runBehind } from "../together.js";

runBehind("document");
