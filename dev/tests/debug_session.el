;; A session of Emacs' dap-mode with tools/debug_adapter, in batch: sets breakpoints, makes the moves that it is given,
;; and prints a line for each stop: the function, the line, and the values that are asked for. test_debug_emacs.py calls
;; it with the variables below in its environment.
(dolist (folder (directory-files "/usr/share/emacs/site-lisp/elpa-src" t "^[^.]"))
  (add-to-list 'load-path folder))
(setq user-emacs-directory (file-name-as-directory (getenv "SESSION_HOME"))
      dap-breakpoints-file (expand-file-name "breakpoints" user-emacs-directory)
      lsp-session-file (expand-file-name "session" user-emacs-directory)
      lsp-auto-guess-root t dap-auto-show-output nil)
(require 'dap-mode)
(require 'dap-ui)
(setq dap-auto-configure-features nil)
(defvar session-stops 0)
(add-hook 'dap-stack-frame-changed-hook (lambda (_) (setq session-stops (1+ session-stops))))

(defun session-wait (condition)
  "Lets the adapter answer until CONDITION holds."
  (let ((end (+ (float-time) 120)))
    (while (and (< (float-time) end) (not (funcall condition)))
      (accept-process-output nil 0.05))
    (unless (funcall condition) (error "No answer"))))

(defun session-ask (command arguments)
  "The answer to a request."
  (let (answer)
    (dap--send-message (dap--make-request command arguments) (lambda (it) (setq answer it)) (dap--cur-session))
    (session-wait (lambda () answer))
    answer))

(defun session-show ()
  "Prints the place of the last stop, with the values of the expressions that are asked for."
  (let ((frame (dap--debug-session-active-frame (dap--cur-session))))
    (princ (format "%s %s" (gethash "name" frame) (gethash "line" frame)))
    (dolist (it (split-string (getenv "SESSION_PRINTS") ";" t))
      (let ((body (gethash "body" (session-ask "evaluate" (list :expression it :frameId (gethash "id" frame))))))
        (princ (format " %s=%s" it (if body (gethash "result" body) "?")))))
    (princ "\n")))

(defun session-move (command)
  "Makes a move, and shows where it ends."
  (let ((before session-stops) (session (dap--cur-session)))
    (dap--send-message
     (dap--make-request command (list :threadId (dap--debug-session-thread-id session))) #'ignore session)
    (dap--resume-application session)
    (session-wait (lambda () (> session-stops before)))
    (session-show)))

(dap-register-debug-provider
 "capriccio" (lambda (launch) (plist-put launch :dap-server-path (list (getenv "SESSION_ADAPTER")))))
(with-current-buffer (find-file-noselect (getenv "SESSION_SOURCE"))
  (dolist (line (split-string (getenv "SESSION_BREAKPOINTS") ";" t))
    (goto-char (point-min))
    (forward-line (1- (string-to-number line)))
    (dap-breakpoint-add)))
(dap-debug (list :type "capriccio" :request "launch" :name "session" :cwd (getenv "SESSION_HOME")
                 :source (getenv "SESSION_SOURCE") :trace (getenv "SESSION_TRACE")
                 :options (vconcat (split-string (getenv "SESSION_OPTIONS") " " t))))
(session-wait (lambda () (> session-stops 0)))
(session-show)
(mapc #'session-move (split-string (getenv "SESSION_MOVES") ";" t))
