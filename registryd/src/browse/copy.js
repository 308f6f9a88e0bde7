// Adds to each command a button that copies it. Without a script, or without the right to copy, the page has no such buttons.
"use strict";
if (navigator.clipboard) {
    for (const command of document.querySelectorAll(".command")) {
        const text = command.querySelector("code").textContent;
        const button = document.createElement("button");
        button.type = "button";
        button.textContent = "Copy";
        button.setAttribute("aria-label", `Copy: ${text}`);
        const status = document.createElement("span");
        status.className = "copied";
        status.setAttribute("role", "status");
        button.addEventListener("click", async () => {
            try {
                await navigator.clipboard.writeText(text);
                status.textContent = "Copied";
            } catch {
                status.textContent = "Cannot copy";
            }
            setTimeout(() => { status.textContent = ""; }, 2000);
        });
        command.append(button, status);
    }
}
