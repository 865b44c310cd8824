// In a worker, so that the page stays free: the digest's module comes as a message, its text goes back.
import { digest } from "../../bindings/js/digest.js";

onmessage = async ({ data }) => postMessage(await digest(data));
