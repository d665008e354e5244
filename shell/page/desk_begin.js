/** The few lines with which the desk begins: its script is packed in its data, and is started from there. */
import { unpacked } from "../both/packing.js";

const { packed } = JSON.parse(document.getElementById("data")?.textContent ?? "{}");
unpacked(packed).then((bytes) => {
    const { common, desk } = JSON.parse(new TextDecoder().decode(bytes)), script = document.createElement("script");
    script.src = URL.createObjectURL(new Blob([common, desk], { type: "text/javascript" }));
    document.body.append(script);
}).catch((why) => {
    document.getElementById("answer")?.append(`This page couldn't be unpacked in this browser: ${why}`);
});
