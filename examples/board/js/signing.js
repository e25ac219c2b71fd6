// Signing off at a shared console. A browser keeps the last name and password until it is closed. So the page lets it sign on as somebody
// who holds nothing, by a path of the site that takes this name alone, and begins anew.

import {$} from "./elements.js";
import {sayNotice} from "./trouble.js";
import {forgetUnits} from "./units.js";

const NOBODY = "signed-off";
const begin = location.origin + location.pathname;

function signOff() {
    const request = new XMLHttpRequest();
    request.open("GET", new URL("sign-off", begin), true, NOBODY, "none");
    request.addEventListener("loadend", () => {
        if (request.status === 204) {
            forgetUnits();
            location.replace(begin);
        } else {
            sayNotice("This site cannot sign you off: close all windows of the browser.");
        }
    });
    request.send();
}

$("sign-off").addEventListener("click", signOff);

export const showSignOff = (person) => {
    $("sign-off").hidden = person === "";
};
