// Says why nothing loads, where the modules of the page can't say it: this is no module, so it runs from a file too.
(() => {
    const folder = decodeURIComponent(location.pathname.replace(/[^/]*$/, ''));
    const asFile = 'This page was opened as a file, and browsers load its modules from a server alone. '
        + `Serve its folder, as by python3 -m http.server -d '${folder}', and open http://localhost:8000.`;

    // Says it in the place of "Loading", once that is there.
    function tell(reason) {
        const state = document.getElementById('state');
        if (!state) {
            addEventListener('DOMContentLoaded', () => tell(reason));
            return;
        }
        state.className = 'bad';
        state.setAttribute('role', 'alert');
        state.textContent = reason;
    }

    if (location.protocol === 'file:') {
        tell(asFile);
    } else {
        // A script, or one that it imports, which did not come.
        addEventListener('error', ({ target }) => {
            if (target.localName === 'script') tell('A part of the page could not be loaded. Load it again.');
        }, true);
    }
})();
